//! Reading formulas: the heading, `let` parts, and the answer.

use crate::command_messages::{given_twice, meant};
use crate::comparison::COMPARATORS;
use crate::faults::BEGINNINGS;
use crate::messages;
use crate::model::{Formula, Heading, Node, Owner};
use crate::names::nearest;
use crate::phrase;
use crate::reader::{Lost, Named, Read, Reader};
use crate::report::Place;
use crate::words::Token;
use std::collections::BTreeMap;

/// So many nodes a formula can have.
pub const NODES: usize = 64;
/// So deep `not` and parentheses can stand inside each other.
const DEEPEST: usize = 200;

/// A formula of the text; one that could not be read has no nodes.
pub struct Drafted {
    pub heading: Heading,
    pub formula: Formula,
}

struct Part {
    node: usize,
    place: Place,
    used: bool,
}

/// A formula as far as it is read.
pub struct Body {
    /// Nothing of a permission that is not there.
    pub heading: Option<Heading>,
    pub owners: &'static [Owner],
    nodes: Vec<Node>,
    names: Vec<Option<String>>,
    parts: BTreeMap<String, Part>,
    /// The name of the part that is being read.
    part: Option<String>,
    depth: usize,
    /// The word that gives the first node too many.
    over: Option<Place>,
}

impl Body {
    fn push(&mut self, node: Node, place: Place) -> usize {
        if self.nodes.len() == NODES {
            self.over = Some(place);
        }
        self.nodes.push(node);
        self.names.push(None);
        self.nodes.len() - 1
    }

    pub fn has_part(&self, name: &str) -> bool {
        self.parts.contains_key(name)
    }
}

impl Reader {
    pub fn formula(&mut self) -> Read<()> {
        let place = self.word().place;
        let heading = self.heading()?;
        let number = heading.and_then(|heading| self.draft(heading, place));
        self.form = messages::heading_form();
        self.need(":")?;
        let owners = heading.unwrap_or(Heading::Allow(0)).owners();
        let mut body = Body { heading, owners, nodes: Vec::new(), names: Vec::new(), parts: BTreeMap::new(), part: None, depth: 0, over: None };
        while self.sees(0, "let") {
            self.part(&mut body)?;
        }
        self.form = messages::answer_form();
        let start = self.word().place;
        let answer = self.either(&mut body)?;
        self.ends_formula(start)?;
        if answer + 1 < body.nodes.len() {
            body.push(Node::And(answer, answer), start);
        }
        self.close(number, body);
        Ok(())
    }

    /// What a formula decides; nothing, with a fault, where it is a permission that is not there.
    fn heading(&mut self) -> Read<Option<Heading>> {
        self.form = messages::heading_form();
        if self.take("open") {
            return self.need("session").map(|_| Some(Heading::OpenSession));
        }
        if self.take("make") {
            return self.need("item").map(|_| Some(Heading::MakeItem));
        }
        if self.take("change") {
            if self.take("session") {
                return Ok(Some(Heading::ChangeSession));
            }
            return if self.take("item") { Ok(Some(Heading::ChangeItem)) } else { Err(self.misplaced("`session` or `item`")) };
        }
        self.need("allow")?;
        let named = self.name("the name of a permission")?;
        let names: Vec<String> = self.rules.permissions.iter().map(|p| p.name.clone()).collect();
        Ok(self.declared("permission", &named, &names).map(Heading::Allow))
    }

    /// The number that a formula gets; none, with a fault, if it is given twice.
    fn draft(&mut self, heading: Heading, place: Place) -> Option<usize> {
        if let Some(first) = self.formulas.iter().find(|drafted| drafted.heading == heading) {
            let line = first.formula.place.line;
            self.fault(place, given_twice(&phrase::heading(&self.rules, heading)), messages::first_is(line));
            return None;
        }
        self.formulas.push(Drafted { heading, formula: Formula { place, ..Formula::default() } });
        Some(self.formulas.len() - 1)
    }

    /// Keeps a formula that is read, under its number.
    fn close(&mut self, number: Option<usize>, body: Body) {
        if let Some(place) = body.over {
            self.fault(place, messages::too_many_nodes(body.nodes.len()), messages::node_count());
        }
        let unused = body.parts.into_iter().filter(|(_, part)| !part.used);
        self.seen.unused_parts.extend(unused.map(|(name, part)| Named { name, place: part.place }));
        if let Some(drafted) = number.and_then(|number| self.formulas.get_mut(number)) {
            (drafted.formula.nodes, drafted.formula.names) = (body.nodes, body.names);
        }
    }

    /// `let mine = item.ledger in session.ledgers`. A node keeps the first name that it gets.
    fn part(&mut self, body: &mut Body) -> Read<()> {
        self.form = messages::part_form();
        self.step();
        let named = self.name("a name")?;
        let first = body.parts.get(&named.name).map(|part| part.place);
        self.is_new("a part", &named, first);
        self.need("=")?;
        body.part = Some(named.name.clone());
        let node = self.either(body)?;
        body.part = None;
        body.names[node].get_or_insert_with(|| named.name.clone());
        if first.is_none() {
            body.parts.insert(named.name, Part { node, place: named.place, used: false });
        }
        Ok(())
    }

    fn either(&mut self, body: &mut Body) -> Read<usize> {
        let mut node = self.both(body)?;
        while self.sees(0, "or") {
            let place = self.step();
            let right = self.both(body)?;
            node = body.push(Node::Or(node, right), place);
        }
        Ok(node)
    }

    fn both(&mut self, body: &mut Body) -> Read<usize> {
        let mut node = self.single(body)?;
        while self.sees(0, "and") {
            let place = self.step();
            let right = self.single(body)?;
            node = body.push(Node::And(node, right), place);
        }
        Ok(node)
    }

    fn single(&mut self, body: &mut Body) -> Read<usize> {
        let place = self.word().place;
        body.depth += 1;
        if body.depth > DEEPEST {
            return Err(self.lost(place, messages::too_deep(), messages::less_deep()));
        }
        let node = self.undivided(body)?;
        body.depth -= 1;
        if self.sees_any(0, &COMPARATORS) {
            return Err(self.compares_no_value(messages::two_sides()));
        }
        Ok(node)
    }

    /// A part that no `and` or `or` joins.
    fn undivided(&mut self, body: &mut Body) -> Read<usize> {
        let place = self.word().place;
        if self.take("not") {
            let node = self.single(body)?;
            return Ok(body.push(Node::Not(node), place));
        }
        if self.take("(") {
            let node = self.either(body)?;
            if !self.take(")") {
                return Err(self.misplaced_for("`)`", messages::opened(place.line)));
            }
            return Ok(node);
        }
        for (word, node) in [("true", Node::True), ("false", Node::False)] {
            if self.take(word) {
                return Ok(body.push(node, place));
            }
        }
        match self.word().token.clone() {
            Token::Name(name) | Token::Quoted(name) if self.stands_alone() => self.named_part(&name, body),
            _ if self.resumes() => Err(self.misplaced("a formula")),
            _ => {
                let (node, place) = self.comparison(body)?;
                Ok(body.push(node, place))
            }
        }
    }

    /// Whether the present word is a name that is compared with nothing: a name that stands on one side of a comparison is a value.
    fn stands_alone(&self) -> bool {
        let compared = self.sees_any(1, &COMPARATORS) || self.sees(1, ".") || matches!(self.ahead(1).token, Token::Other(_));
        self.sees_name(0) && !compared
    }

    /// The node of a part; of an unknown one, with a fault, a node that takes its place.
    fn named_part(&mut self, name: &str, body: &mut Body) -> Read<usize> {
        let place = self.word().place;
        match body.parts.get_mut(name) {
            Some(part) => {
                part.used = true;
                self.step();
                Ok(part.node)
            }
            None if self.resumes() => Err(self.misplaced("a formula")),
            None => self.no_part(name, body).map(|_| body.push(Node::False, place)),
        }
    }

    /// Goes on after a name that is no part, if more of the formula or a new declaration follows. What seems misplaced then is not said.
    fn no_part(&mut self, name: &str, body: &Body) -> Read<()> {
        let place = self.step();
        let (message, help) = (messages::no_part(&self.source(place)), self.instead_of_part(name, body));
        self.fault(place, message, help);
        self.passed_over = true;
        let inside_itself = body.part.as_deref() == Some(name);
        if !inside_itself && (self.sees_any(0, &["and", "or", ")", "let"]) || self.begins()) {
            return Ok(());
        }
        Err(Lost)
    }

    /// What may have been meant by a name that is no part: a word, a part, an attribute, a value.
    fn instead_of_part(&self, name: &str, body: &Body) -> String {
        const WORDS: [&str; 3] = ["true", "false", "not"];
        if let Some(word) = WORDS.into_iter().find(|word| name.to_lowercase() == *word) {
            return meant(word);
        }
        if let Some(part) = nearest(name, body.parts.keys().map(String::as_str).take(NODES)) {
            return meant(&phrase::name(part));
        }
        for owner in body.owners {
            for attribute in self.rules.of(owner.class()) {
                let side = format!("{}.{}", owner.words(), phrase::name(&attribute.name));
                if attribute.name == name {
                    return messages::instead(&side);
                }
                if attribute.names.iter().any(|value| value == name) {
                    let value = phrase::name(name);
                    return messages::instead(&if attribute.set { format!("{value} in {side}") } else { format!("{side} = {value}") });
                }
            }
        }
        match nearest(name, WORDS.into_iter()) {
            Some(word) => meant(word),
            None => messages::name_part(&phrase::name(name)),
        }
    }

    /// After its answer a formula ends.
    fn ends_formula(&mut self, start: Place) -> Read<()> {
        if self.begins() {
            return Ok(());
        }
        if self.sees(0, "let") {
            let place = self.word().place;
            return Err(self.lost(place, messages::late_part(), messages::answer_began(start.line)));
        }
        if self.sees(0, ")") {
            let place = self.word().place;
            return Err(self.lost(place, messages::closes_nothing(), messages::leave_out()));
        }
        Err(self.not_joined())
    }

    /// What follows the answer does not belong to it. First on its line it may begin the next declaration.
    fn not_joined(&mut self) -> Lost {
        if self.word().first && !self.sees(1, ".") && (self.sees_name(1) || self.meant_word(0, &BEGINNINGS).is_some()) {
            return self.no_declaration();
        }
        let help = self.meant_word(0, &["and", "or"]).map_or(messages::joined().to_string(), meant);
        self.misplaced_for("`and` or `or`", help)
    }
}
