//! Readable rule text, last part: from a text to a file and back. docs/TEXT.md describes the language.

use super::expectation::{expectation, Asked, Expectation};
use super::expression::{formula, HOLDERS};
use super::formula::HOLD_CONSTANT;
use super::lists::{declaration as list_declaration, number_all};
use super::names::{attribute, item, permission, session, user, Names, CLASSES};
use super::read::read;
use super::rules::{Attribute, Node, RawRules, Rules, ALLOW, CHANGE_ITEM, CHANGE_SESSION, ITEM, MAKE, OPEN, SESSION, USER};
use super::value::Value;
use super::words::{shown, Bad, Word, Words};
use super::write::file_of;

/// The first four formulas as people write them, each at its number.
const FORMULAS: [&str; 4] = ["open session", "change session", "make item", "change item"];

/// A text being read: what is declared, the rules so far, and which formulas there are.
struct Assembler {
    words: Words,
    names: Names,
    raw: RawRules,
    expectations: Vec<Expectation>,
}

impl Assembler {
    /// The formula that the next words head.
    fn heading(&mut self) -> Result<usize, Bad> {
        if self.words.take_if("open") {
            return self.words.expect("session").map(|_| OPEN);
        }
        if self.words.take_if("make") {
            return self.words.expect("item").map(|_| MAKE);
        }
        if self.words.take_if("change") {
            if self.words.take_if("session") {
                return Ok(CHANGE_SESSION);
            }
            return self.words.expect("item").map(|_| CHANGE_ITEM);
        }
        if self.words.take_if("allow") {
            let line = self.words.line();
            let name = self.words.name()?;
            let place = self.names.permissions.iter().position(|permission| *permission == name);
            return place.map(|place| ALLOW + place).ok_or((line, format!("there is no permission `{name}` so far")));
        }
        self.words.bad(&format!("no declaration begins with {}", shown(self.words.peek())))
    }

    /// A formula with its heading.
    fn formula(&mut self) -> Result<(), Bad> {
        let line = self.words.line();
        let place = self.heading()?;
        if self.raw.lengths[place] != 0 {
            return Err((line, "this formula is given twice".to_string()));
        }
        self.words.expect(":")?;
        let nodes = formula(&mut self.words, &self.names, place)?;
        self.raw.lengths[place] = nodes.len() as u8;
        for (number, node) in nodes.iter().enumerate() {
            self.raw.nodes[place][number] = node.operator * 65536 + node.a * 256 + node.b;
        }
        Ok(())
    }

    /// The class whose word is taken away, if one stands next.
    fn class(&mut self) -> Option<usize> {
        (0..3).find(|class| self.words.take_if(CLASSES[*class]))
    }

    fn declaration(&mut self) -> Result<(), Bad> {
        if self.words.take_if("expect") {
            self.expectations.push(expectation(&mut self.words)?);
            return Ok(());
        }
        if self.words.take_if("list") {
            return list_declaration(&mut self.words, &mut self.names.lists);
        }
        if self.words.take_if("permission") {
            return permission(&mut self.words, &mut self.names, &mut self.raw);
        }
        let class = match self.class() {
            Some(class) => class,
            None => return self.formula(),
        };
        if self.words.take_if("attribute") {
            return attribute(&mut self.words, &mut self.names, &mut self.raw, class);
        }
        match class {
            USER => user(&mut self.words, &mut self.names, &mut self.raw),
            SESSION => session(&mut self.words, &mut self.names, &mut self.raw),
            _ => item(&mut self.words, &mut self.names, &mut self.raw),
        }
    }

    /// What a whole text must have: the file, and what its expectations ask.
    fn finish(&mut self) -> Result<(Vec<u8>, Vec<Asked>), Bad> {
        if self.names.users.is_empty() {
            return self.words.bad("there is no user");
        }
        if self.names.permissions.is_empty() {
            return self.words.bad("there is no permission");
        }
        for (place, heading) in FORMULAS.iter().enumerate() {
            if self.raw.lengths[place] == 0 {
                return self.words.bad(&format!("there is no formula `{heading}`"));
            }
        }
        for (place, permission) in self.names.permissions.iter().enumerate() {
            if self.raw.lengths[ALLOW + place] == 0 {
                return self.words.bad(&format!("there is no formula `allow {permission}`"));
            }
        }
        let asked: Result<Vec<Asked>, Bad> = self.expectations.iter().map(|one| one.asked(&self.names)).collect();
        number_all(&self.names, &mut self.raw);
        match file_of(&self.raw) {
            Ok(bytes) => asked.map(|asked| (bytes, asked)),
            Err(number) => self.words.bad(&format!("no file can hold these rules: {number}")),
        }
    }
}

/// The file of a text and what its expectations ask, or the line and the reason why the text is bad.
pub fn assemble_with_expectations(text: &str) -> Result<(Vec<u8>, Vec<Asked>), Bad> {
    let words = Words::of(text)?;
    let mut assembler = Assembler { words, names: Names::none(), raw: RawRules::zero(), expectations: Vec::new() };
    while *assembler.words.peek() != Word::End {
        assembler.declaration()?;
    }
    assembler.finish()
}

/// The file of a text, or the line and the reason why the text is bad. Expectations leave nothing in it.
pub fn assemble(text: &str) -> Result<Vec<u8>, Bad> {
    assemble_with_expectations(text).map(|(bytes, _)| bytes)
}

/// The value of a holder as text.
fn value_text(rules: &Rules, class: usize, value: u32) -> String {
    let mut parts = Vec::new();
    for (place, part) in rules.meaning(class, u64::from(value)).into_iter().flatten().enumerate() {
        parts.push(match part {
            Value::Number(number) => format!("a{place} = {number}"),
            Value::Set(set) => {
                let members = (0..set.len()).filter(|member| set[*member]);
                let members: Vec<String> = members.map(|member| member.to_string()).collect();
                format!("a{place} = {{{}}}", members.join(", "))
            }
        });
    }
    if parts.is_empty() {
        return String::new();
    }
    format!(": {}", parts.join(", "))
}

/// An operand as text.
fn operand_text(operand: u32) -> String {
    let (holder, number) = (operand / 32, operand % 32);
    if holder == HOLD_CONSTANT {
        return number.to_string();
    }
    format!("{}.a{number}", HOLDERS[holder as usize])
}

/// A node as text; the nodes it uses stand under their names.
fn node_text(node: &Node) -> String {
    let Node { operator, a, b } = *node;
    let comparison = |word: &str| format!("{} {word} {}", operand_text(a), operand_text(b));
    match operator {
        0 => "false".to_string(),
        1 => "true".to_string(),
        2 => format!("not n{a}"),
        3 => format!("n{a} and n{b}"),
        4 => format!("n{a} or n{b}"),
        5 => comparison("="),
        6 => comparison("<"),
        7 => comparison("<="),
        8 => comparison("in"),
        9 => comparison("subset"),
        _ => comparison("proper subset"),
    }
}

/// A formula as text: one line for each node, the last one being the answer.
fn formula_text(heading: &str, nodes: &[Node]) -> String {
    let mut text = format!("\n{heading}:\n");
    let last = nodes.len() - 1;
    for (place, node) in nodes[..last].iter().enumerate() {
        text += &format!("  let n{place} = {}\n", node_text(node));
    }
    text + &format!("  {}\n", node_text(&nodes[last]))
}

/// The declarations of all lists that the attributes use, in rising order; list 5 is called `list5`.
fn lists_text(attributes: &[Attribute]) -> String {
    let mut text = String::new();
    for number in 1..32 {
        if let Some(attribute) = attributes.iter().find(|attribute| attribute.list == number) {
            text += &format!("list list{number} {number} = {}\n", attribute.size);
        }
    }
    text
}

/// An attribute as text: its kind and its list.
fn attribute_text(attribute: &Attribute) -> String {
    let kind = if attribute.set { "set" } else { "one" };
    match attribute.list {
        0 => format!("{kind} of {}", attribute.size),
        list => format!("{kind} of list{list}"),
    }
}

/// The text of a file, with numbered names, or the number of the file's first fault.
/// Assembled again it gives the same bytes.
pub fn list(bytes: &[u8]) -> Result<String, u32> {
    let rules = read(bytes)?;
    let mut text = lists_text(&rules.attributes.concat());
    for (class, attributes) in rules.attributes.iter().enumerate() {
        for (place, attribute) in attributes.iter().enumerate() {
            text += &format!("{} attribute a{place}: {}\n", CLASSES[class], attribute_text(attribute));
        }
    }
    for (place, value) in rules.users.iter().enumerate() {
        text += &format!("user user{place}{}\n", value_text(&rules, USER, *value));
    }
    for session in &rules.sessions {
        text += &format!("session of user{}{}\n", session.user, value_text(&rules, SESSION, session.value));
    }
    for value in &rules.items {
        text += &format!("item{}\n", value_text(&rules, ITEM, *value));
    }
    for place in 0..rules.permissions {
        text += &format!("permission permission{place}\n");
    }
    for (place, nodes) in rules.formulas.iter().enumerate() {
        let heading = match FORMULAS.get(place) {
            Some(heading) => heading.to_string(),
            None => format!("allow permission{}", place - ALLOW),
        };
        text += &formula_text(&heading, nodes);
    }
    Ok(text)
}
