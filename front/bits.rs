//! Writing rules as a rule file.

use crate::model::{Attribute, Class, Formula, Node, Rules, Side, CLASSES};

/// The holder number of a constant; those of owners come before it.
const CONSTANT: u8 = 5;

/// The rule file of rules that are within its limits.
pub fn bytes(rules: &Rules) -> Vec<u8> {
    let mut bits = Bits::default();
    head(&mut bits, rules);
    for attribute in rules.attributes.iter().flatten() {
        bits.put(u64::from(attribute.set), 1);
        bits.put(attribute.size as u64, 5);
        bits.put(rules.list_number(attribute) as u64, 5);
        bits.put(0, 1);
    }
    for class in CLASSES {
        holders(&mut bits, rules, class);
    }
    for formula in &rules.formulas {
        nodes(&mut bits, formula);
    }
    bits.bytes()
}

/// How many bits the value of a holder with these attributes takes.
pub fn width(attributes: &[Attribute]) -> u32 {
    attributes.iter().map(Attribute::width).sum()
}

fn head(bits: &mut Bits, rules: &Rules) {
    for attributes in &rules.attributes {
        bits.put(attributes.len() as u64, 4);
    }
    bits.put(rules.users.len() as u64, 5);
    bits.put(rules.sessions.len() as u64, 6);
    bits.put(rules.items.len() as u64, 6);
    bits.put(rules.permissions.len() as u64, 4);
    bits.put(0, 7);
}

fn holders(bits: &mut Bits, rules: &Rules, class: Class) {
    for holder in rules.holders(class) {
        if class == Class::Session {
            bits.put(holder.user as u64, 4);
        }
        bits.put(rules.pack(class, &holder.codes), width(rules.of(class)));
    }
}

fn nodes(bits: &mut Bits, formula: &Formula) {
    bits.put(formula.nodes.len() as u64, 8);
    for node in &formula.nodes {
        let (operator, a, b) = fields(*node);
        bits.put(u64::from(operator), 4);
        bits.put(u64::from(a), 8);
        bits.put(u64::from(b), 8);
    }
}

/// Operator, a and b of a node.
fn fields(node: Node) -> (u8, u8, u8) {
    match node {
        Node::False => (0, 0, 0),
        Node::True => (1, 0, 0),
        Node::Not(a) => (2, a as u8, 0),
        Node::And(a, b) => (3, a as u8, b as u8),
        Node::Or(a, b) => (4, a as u8, b as u8),
        Node::Compare(comparison, left, right) => (comparison.operator(), operand(left), operand(right)),
    }
}

/// A side as holder (3 bits) and attribute number or constant (5 bits).
fn operand(side: Side) -> u8 {
    match side {
        Side::Attribute(owner, number) => (owner as u8) << 5 | number as u8,
        Side::Constant(code) => CONSTANT << 5 | code,
    }
}

/// The bits of a file, the first one first.
#[derive(Default)]
struct Bits(Vec<bool>);

impl Bits {
    /// Appends the low `width` bits of a value, the most significant first.
    fn put(&mut self, value: u64, width: u32) {
        self.0.extend((0..width).rev().map(|place| value >> place & 1 == 1));
    }

    /// The bits as bytes; zeros fill the last one.
    fn bytes(&self) -> Vec<u8> {
        let byte = |eight: &[bool]| (0..8).fold(0, |byte, i| byte << 1 | u8::from(eight.get(i) == Some(&true)));
        self.0.chunks(8).map(byte).collect()
    }
}
