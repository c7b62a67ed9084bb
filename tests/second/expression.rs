//! Readable rule text, third part: formulas as expressions.

use super::formula::{class_of, holders_of, HOLD_CONSTANT, HOLD_ITEM, HOLD_NEW_ITEM};
use super::formula::{HOLD_NEW_SESSION, HOLD_SESSION, HOLD_USER};
use super::names::{Named, Names};
use super::rules::Node;
use super::words::{shown, Bad, Word, Words};

/// The holders as people write them, each at its number.
pub const HOLDERS: [&str; 5] = ["user", "session", "new session", "item", "new item"];

/// How deep parentheses and `not` can stand in one another.
const DEEPEST: u32 = 200;

/// A formula being put together: its nodes so far and the names given to some of them.
struct Builder<'a> {
    names: &'a Names,
    formula: usize,
    nodes: Vec<Node>,
    known: Vec<(String, u32)>,
    depth: u32,
}

/// One side of a comparison.
enum Side<'a> {
    Attribute { code: u32, named: &'a Named },
    Number(u32),
    Name(String),
}

/// The nodes of a formula: any number of `let NAME = EXPRESSION`, then the expression that is the answer.
pub fn formula(words: &mut Words, names: &Names, formula: usize) -> Result<Vec<Node>, Bad> {
    let mut builder = Builder { names, formula, nodes: Vec::new(), known: Vec::new(), depth: 0 };
    while words.take_if("let") {
        builder.part(words)?;
    }
    let line = words.line();
    let answer = builder.either(words)?;
    if answer as usize + 1 < builder.nodes.len() {
        // The last node is the answer, so an earlier one is said once more.
        builder.add(line, 3, answer, answer)?;
    }
    Ok(builder.nodes)
}

impl<'a> Builder<'a> {
    /// Adds a node and returns its number.
    fn add(&mut self, line: usize, operator: u32, a: u32, b: u32) -> Result<u32, Bad> {
        if self.nodes.len() == 64 {
            return Err((line, "this formula takes more than 64 nodes".to_string()));
        }
        self.nodes.push(Node { operator, a, b });
        Ok(self.nodes.len() as u32 - 1)
    }

    fn find(&self, name: &str) -> Option<u32> {
        self.known.iter().find(|(other, _)| other == name).map(|(_, node)| *node)
    }

    /// `NAME = EXPRESSION`, after the word `let`.
    fn part(&mut self, words: &mut Words) -> Result<(), Bad> {
        let line = words.line();
        let name = words.name()?;
        if self.find(&name).is_some() {
            return Err((line, format!("`{name}` is already a part of this formula")));
        }
        words.expect("=")?;
        let node = self.either(words)?;
        self.known.push((name, node));
        Ok(())
    }

    fn either(&mut self, words: &mut Words) -> Result<u32, Bad> {
        let mut node = self.both(words)?;
        while words.is_next("or") {
            let line = words.line();
            words.take();
            let other = self.both(words)?;
            node = self.add(line, 4, node, other)?;
        }
        Ok(node)
    }

    fn both(&mut self, words: &mut Words) -> Result<u32, Bad> {
        let mut node = self.single(words)?;
        while words.is_next("and") {
            let line = words.line();
            words.take();
            let other = self.single(words)?;
            node = self.add(line, 3, node, other)?;
        }
        Ok(node)
    }

    /// Something that `and` and `or` can join; how deep these stand in one another is limited.
    fn single(&mut self, words: &mut Words) -> Result<u32, Bad> {
        if self.depth == DEEPEST {
            return words.bad("this formula has too many parts inside parts");
        }
        self.depth += 1;
        let node = self.single_within(words);
        self.depth -= 1;
        node
    }

    fn single_within(&mut self, words: &mut Words) -> Result<u32, Bad> {
        let line = words.line();
        if words.take_if("not") {
            let node = self.single(words)?;
            return self.add(line, 2, node, 0);
        }
        if words.take_if("(") {
            let node = self.either(words)?;
            words.expect(")")?;
            return Ok(node);
        }
        if words.take_if("false") {
            return self.add(line, 0, 0, 0);
        }
        if words.take_if("true") {
            return self.add(line, 1, 0, 0);
        }
        if let Some(node) = self.earlier_part(words) {
            words.take();
            return Ok(node);
        }
        self.comparison(words)
    }

    /// The node of a part named before; a name that is compared with something is a constant instead.
    fn earlier_part(&self, words: &Words) -> Option<u32> {
        let name = words.peek_name()?;
        let compared = match words.peek_second() {
            Word::Mark(mark) => ["=", "<", "<="].contains(mark),
            Word::Name(word) => ["in", "subset", "proper"].contains(&word.as_str()),
            _ => false,
        };
        if compared {
            return None;
        }
        self.find(name)
    }

    fn comparison(&mut self, words: &mut Words) -> Result<u32, Bad> {
        let line = words.line();
        let left = self.side(words)?;
        let sign = words.line();
        let operator = match words.peek() {
            Word::Mark("=") => 5,
            Word::Mark("<") => 6,
            Word::Mark("<=") => 7,
            Word::Name(word) if word == "in" => 8,
            Word::Name(word) if word == "subset" => 9,
            Word::Name(word) if word == "proper" => 10,
            other => {
                let reason = match left {
                    Side::Name(name) => format!("`{name}` is no part of this formula, and compared with nothing"),
                    _ => format!("a comparison should stand here, not {}", shown(other)),
                };
                return words.bad(&reason);
            }
        };
        words.take();
        if operator == 10 {
            words.expect("subset")?;
        }
        let right = self.side(words)?;
        let a = operand(line, &left, &right, operator >= 9)?;
        let b = operand(line, &right, &left, operator >= 8)?;
        if !same_list(&left, &right) {
            return Err((sign, "an attribute is compared with one of another list".to_string()));
        }
        self.add(line, operator, a, b)
    }

    /// One side of a comparison.
    fn side(&self, words: &mut Words) -> Result<Side<'a>, Bad> {
        let line = words.line();
        if let Word::Number(number) = *words.peek() {
            words.take();
            return Ok(Side::Number(number));
        }
        let holder = match holder(words)? {
            Some(holder) => holder,
            None => return Ok(Side::Name(words.name()?)),
        };
        if !holders_of(self.formula).contains(&holder) {
            return Err((line, format!("`{}` cannot be used in this formula", HOLDERS[holder as usize])));
        }
        words.expect(".")?;
        let name = words.name()?;
        let attributes = &self.names.attributes[class_of(holder)];
        match attributes.iter().position(|named| named.name == name) {
            Some(place) => Ok(Side::Attribute { code: holder * 32 + place as u32, named: &attributes[place] }),
            None => Err((line, format!("`{}` has no attribute `{name}`", HOLDERS[holder as usize]))),
        }
    }
}

/// The holder that stands next, if any.
fn holder(words: &mut Words) -> Result<Option<u32>, Bad> {
    if words.take_if("new") {
        if words.take_if("session") {
            return Ok(Some(HOLD_NEW_SESSION));
        }
        words.expect("item")?;
        return Ok(Some(HOLD_NEW_ITEM));
    }
    if words.take_if("user") {
        return Ok(Some(HOLD_USER));
    }
    if words.take_if("session") {
        return Ok(Some(HOLD_SESSION));
    }
    Ok(words.take_if("item").then_some(HOLD_ITEM))
}

/// Whether two sides can be compared: attributes only if they use the same declared list, or both none.
fn same_list(left: &Side, right: &Side) -> bool {
    match (left, right) {
        (Side::Attribute { named: one, .. }, Side::Attribute { named: other, .. }) => one.list == other.list,
        _ => true,
    }
}

/// The operand of one side; a name is looked up in the list of the other side.
fn operand(line: usize, side: &Side, other: &Side, set: bool) -> Result<u32, Bad> {
    let number = match (side, other) {
        (Side::Attribute { code, named }, _) if named.attribute.set == set => return Ok(*code),
        (Side::Attribute { named, .. }, _) => {
            let wanted = if set { "a set" } else { "one value, not a set," };
            return Err((line, format!("{wanted} should stand in the place of `{}`", named.name)));
        }
        (Side::Number(number), _) => Some(*number),
        (Side::Name(name), Side::Attribute { named, .. }) => named.number_of(name),
        (Side::Name(_), _) => None,
    };
    match (number, side) {
        _ if set => Err((line, "a set should stand in the place of a constant".to_string())),
        (Some(number), _) if number < 16 => Ok(HOLD_CONSTANT * 32 + number),
        (Some(number), _) => Err((line, format!("{number} is above 15, the greatest constant"))),
        (None, Side::Name(name)) => Err((line, format!("`{name}` is not in the list of the other side"))),
        (None, _) => Err((line, "a constant should stand here".to_string())),
    }
}
