//! Reading comparisons: `session.role = clerk`, `item.ledger in session.ledgers`.

use crate::command_messages::{did_you_mean, meant, not_in_list};
use crate::differing::{differ, lists_too};
use crate::formula::Body;
use crate::holders::in_list;
use crate::messages;
use crate::model::{Comparison, Node, Owner, Side};
use crate::names::ticked;
use crate::phrase;
use crate::reader::{Lost, Read, Reader};
use crate::report::Place;
use crate::signs::operator_for;
use crate::warnings::Compared;
use crate::words::{through, Token};

/// The words and marks that a comparison's operator begins with.
pub const COMPARATORS: [&str; 6] = ["=", "<", "<=", "in", "subset", "proper"];

/// The greatest constant of a file.
const GREATEST: u64 = 15;

enum Value {
    Known(Side),
    /// A name from the list of the other side.
    Name(String),
    /// What stands here is a fault already.
    Unknown,
}

/// A side as it is written.
struct Term {
    value: Value,
    place: Place,
    text: String,
}

impl Reader {
    /// A comparison, and the place of its operator. After a fault in it `false` takes its place.
    pub fn comparison(&mut self, body: &Body) -> Read<(Node, Place)> {
        let left = self.side(body, "a formula", messages::answer_form())?;
        let (comparison, place) = self.operator(&left)?;
        if self.resumes() && !self.is_listed(&left) {
            return Err(self.misplaced_for("the other side", messages::side_form()));
        }
        let right = self.side(body, "the other side", messages::side_form())?;
        if self.sees_any(0, &COMPARATORS) {
            let help = if matches!(left.value, Value::Name(_)) { messages::part_form() } else { messages::two_sides() };
            return Err(self.compares_no_value(help));
        }
        Ok((self.compared(body, left, comparison, right, place)?.unwrap_or(Node::False), place))
    }

    /// An operator stands after something that is no value.
    pub fn compares_no_value(&mut self, help: &str) -> Lost {
        let place = self.word().place;
        self.lost(place, messages::compares_no_value(&self.source(place)), help)
    }

    /// Whether the present word is a name from the list of a side.
    fn is_listed(&self, side: &Term) -> bool {
        let attribute = match side.value {
            Value::Known(side) => self.rules.attribute(side),
            _ => None,
        };
        attribute.map_or(false, |a| a.names.iter().any(|name| self.sees(0, name)))
    }

    fn side(&mut self, body: &Body, wanted: &str, form: &str) -> Read<Term> {
        let place = self.word().place;
        let token = self.word().token.clone();
        if self.sees_any(0, &["user", "session", "item", "new"]) {
            return self.attribute_side(body);
        }
        if self.sees(0, "let") {
            return Err(self.lost(place, messages::late_part(), messages::parts_first()));
        }
        let (value, text) = match token {
            Token::Number(_) if self.sees(1, ".") => return self.no_owner(body),
            Token::Number(number) if number <= GREATEST => (Value::Known(Side::Constant(number as u8)), number.to_string()),
            Token::Number(_) => {
                self.fault(place, messages::constant(&self.source(place)), messages::side_form());
                (Value::Unknown, String::new())
            }
            Token::Name(_) | Token::Quoted(_) if self.sees_name(0) && self.sees(1, ".") => return self.no_owner(body),
            Token::Name(name) | Token::Quoted(name) if self.sees_name(0) => {
                let text = phrase::name(&name);
                (Value::Name(name), text)
            }
            Token::Mark("{") => return Err(self.misplaced_for(wanted, messages::no_written_set())),
            _ => return Err(self.misplaced_for(wanted, form)),
        };
        self.step();
        Ok(Term { value, place, text })
    }

    /// `new session.role`.
    fn attribute_side(&mut self, body: &Body) -> Read<Term> {
        let start = self.word().place;
        let (owner, last) = self.owner()?;
        if !body.owners.contains(&owner) {
            self.fault(through(start, last), messages::not_here(owner.words()), self.here(body));
        }
        if !self.take(".") {
            return Err(self.misplaced_for("`.`", messages::instead(&format!("{}.ATTRIBUTE", owner.words()))));
        }
        let (named, number) = self.attribute_name(owner.class())?;
        Ok(Term {
            value: number.map_or(Value::Unknown, |number| Value::Known(Side::Attribute(owner, number))),
            place: through(start, named.place),
            text: format!("{}.{}", owner.words(), named.shown()),
        })
    }

    /// Whose value is meant, and the place of its last word.
    fn owner(&mut self) -> Read<(Owner, Place)> {
        let new = self.take("new");
        let owners = [("user", Owner::User, None), ("session", Owner::Session, Some(Owner::NewSession)), ("item", Owner::Item, Some(Owner::NewItem))];
        for (word, as_is, proposed) in owners {
            let owner = if new { proposed } else { Some(as_is) };
            if let (true, Some(owner)) = (self.sees(0, word), owner) {
                return Ok((owner, self.step()));
            }
        }
        Err(self.misplaced_for("`session` or `item`", messages::new_ones()))
    }

    /// What stands before a point is no owner; the attribute after it is passed over.
    fn no_owner(&mut self, body: &Body) -> Read<Term> {
        let place = self.word().place;
        let owners: Vec<&str> = body.owners.iter().map(|owner| owner.words()).collect();
        let help = match self.meant_word(0, &owners) {
            Some(word) => did_you_mean(&self.here(body), word),
            None => self.here(body),
        };
        self.fault(place, messages::no_owner(&self.source(place)), help);
        self.step();
        self.need(".")?;
        let named = self.name("an attribute")?;
        Ok(Term { value: Value::Unknown, place: through(place, named.place), text: String::new() })
    }

    /// Whose values this formula may use.
    fn here(&self, body: &Body) -> String {
        messages::here_stand(&ticked(body.owners.iter().map(|owner| owner.words())))
    }

    fn operator(&mut self, left: &Term) -> Read<(Comparison, Place)> {
        let place = self.word().place;
        let signs = self.signs();
        if let (true, Some(way)) = (self.sees_any(0, &["=", "<", "<="]), operator_for(&signs)) {
            let place = Place { length: signs.chars().count(), ..place };
            return Err(self.lost(place, messages::means_nothing(&signs), messages::instead(way)));
        }
        let comparison = match &self.word().token {
            Token::Mark("=") => Comparison::Equal,
            Token::Mark("<") => Comparison::Below,
            Token::Mark("<=") => Comparison::AtMost,
            Token::Name(name) if name == "in" => Comparison::Member,
            Token::Name(name) if name == "subset" => Comparison::Subset,
            Token::Name(name) if name == "proper" => Comparison::ProperSubset,
            _ => return Err(self.no_operator(left)),
        };
        self.step();
        if comparison == Comparison::ProperSubset {
            if !self.sees(0, "subset") {
                return Err(self.misplaced_for("`subset`", messages::instead(comparison.words())));
            }
            return Ok((comparison, through(place, self.step())));
        }
        Ok((comparison, place))
    }

    fn no_operator(&mut self, left: &Term) -> Lost {
        let help = match self.meant_word(0, &["in", "subset", "proper"]) {
            _ if self.sees(0, "not") => messages::not_before(&left.text),
            Some(word) => meant(word),
            None => messages::operators(&left.text),
        };
        self.misplaced_for("a comparison", help)
    }

    /// The node of a comparison; nothing, with a fault, where the sides do not fit.
    fn compared(&mut self, body: &Body, left: Term, comparison: Comparison, right: Term, place: Place) -> Read<Option<Node>> {
        let kinds = match (self.is_set(&left), self.is_set(&right)) {
            (Some(left), Some(right)) => [left, right],
            _ => return Ok(None),
        };
        let bare = [&left, &right].into_iter().find(|term| matches!(term.value, Value::Name(_)));
        if let (Some(term), false) = (bare, is_attribute(&left) || is_attribute(&right)) {
            self.fault(term.place, messages::no_list(&term.text), messages::one_attribute());
            return Ok(None);
        }
        if let Some(term) = [&left, &right].into_iter().find(|term| self.is_list(body, term)) {
            self.fault(term.place, messages::is_list(&term.text), messages::side_form());
            return Ok(None);
        }
        if kinds != comparison.sets() {
            self.unfit(&left, &right, comparison, kinds);
            return Ok(None);
        }
        let sides = (self.looked_up(body, &left, &right)?, self.looked_up(body, &right, &left)?);
        if let (Some(a), Some(b)) = sides {
            if self.lists_differ(body.heading, comparison, [a, b], place) {
                return Ok(None);
            }
            self.seen.compared.push(Compared { comparison, sides: [a, b], place });
            return Ok(Some(Node::Compare(comparison, a, b)));
        }
        Ok(None)
    }

    /// Whether a side is a set; nothing of a side that is not known.
    fn is_set(&self, term: &Term) -> Option<bool> {
        match &term.value {
            Value::Known(side) => self.rules.attribute(*side).map_or(Some(false), |a| if a.size > 0 { Some(a.set) } else { None }),
            Value::Name(_) => Some(false),
            Value::Unknown => None,
        }
    }

    /// Whether a side is the name of a list, where it is no value of any list and no part.
    fn is_list(&self, body: &Body, term: &Term) -> bool {
        let name = match &term.value {
            Value::Name(name) if !body.has_part(name) => name,
            _ => return false,
        };
        let value = self.rules.attributes.iter().flatten().any(|attribute| attribute.names.contains(name));
        !value && self.rules.lists.iter().any(|list| list.name == *name)
    }

    /// One side is a set and should be one value, or the other way round.
    fn unfit(&mut self, left: &Term, right: &Term, comparison: Comparison, kinds: [bool; 2]) {
        let (operator, needed) = (comparison.words(), comparison.sets());
        let (term, set) = if kinds[0] != needed[0] { (left, kinds[0]) } else { (right, kinds[1]) };
        let message = if set { messages::is_set(&term.text, operator) } else { messages::is_one(&term.text, operator) };
        let help = match (&left.value, &right.value) {
            (Value::Known(a), Value::Known(b)) if differ(&self.rules, [*a, *b]) => lists_too(&self.rules, comparison, [*a, *b]),
            _ => messages::instead(&way([&left.text, &right.text], kinds, comparison)),
        };
        self.fault(term.place, message, help);
    }

    /// A side, its name looked up in the list of the other one. A part in its place may be the formula's answer, so nothing after it is read.
    fn looked_up(&mut self, body: &Body, term: &Term, other: &Term) -> Read<Option<Side>> {
        let (name, attribute) = match (&term.value, &other.value) {
            (Value::Known(side), _) => return Ok(Some(*side)),
            (Value::Name(name), Value::Known(side)) => (name, self.rules.attribute(*side).cloned()),
            _ => return Ok(None),
        };
        let number = attribute.iter().flat_map(|a| &a.names).position(|n| n == name);
        if let (None, Some(attribute)) = (number, attribute) {
            let message = not_in_list(name, &other.text);
            if body.has_part(name) {
                return Err(self.lost(term.place, message, messages::is_part(name)));
            }
            self.fault(term.place, message, in_list(&attribute, name));
        }
        Ok(number.map(|number| Side::Constant(number as u8)))
    }
}

/// How two sides of these kinds are compared: with this operator where it takes them, else with one that is near to it.
pub fn way([l, r]: [&str; 2], kinds: [bool; 2], comparison: Comparison) -> String {
    match (kinds, comparison) {
        _ if kinds == comparison.sets() => format!("{l} {} {r}", comparison.words()),
        ([true, true], Comparison::Equal) => format!("{l} subset {r} and {r} subset {l}"),
        ([true, true], Comparison::Below) => format!("{l} proper subset {r}"),
        ([true, true], _) => format!("{l} subset {r}"),
        ([true, false], _) => format!("{r} in {l}"),
        ([false, true], _) => format!("{l} in {r}"),
        ([false, false], _) => format!("{l} = {r}"),
    }
}

fn is_attribute(term: &Term) -> bool {
    matches!(term.value, Value::Known(Side::Attribute(..)))
}
