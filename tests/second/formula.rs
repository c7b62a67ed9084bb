//! Formulas: which nodes a file may hold, and what a formula says of values.

use super::rules::{Attribute, Node, Rules, ALLOW, CHANGE_ITEM, CHANGE_SESSION, ITEM, MAKE, OPEN, SESSION, USER};
use super::value::{is_member, is_subset, Value};

/// The holders of an operand.
pub const HOLD_USER: u32 = 0;
pub const HOLD_SESSION: u32 = 1;
pub const HOLD_NEW_SESSION: u32 = 2;
pub const HOLD_ITEM: u32 = 3;
pub const HOLD_NEW_ITEM: u32 = 4;
pub const HOLD_CONSTANT: u32 = 5;

/// The holders that a formula may use, besides the constant.
pub fn holders_of(formula: usize) -> &'static [u32] {
    match formula {
        OPEN => &[HOLD_USER, HOLD_NEW_SESSION],
        CHANGE_SESSION => &[HOLD_USER, HOLD_SESSION, HOLD_NEW_SESSION],
        MAKE => &[HOLD_SESSION, HOLD_NEW_ITEM],
        CHANGE_ITEM => &[HOLD_SESSION, HOLD_ITEM, HOLD_NEW_ITEM],
        _ => &[HOLD_SESSION, HOLD_ITEM],
    }
}

/// The class of a holder that is not the constant.
pub fn class_of(holder: u32) -> usize {
    match holder {
        HOLD_USER => USER,
        HOLD_SESSION | HOLD_NEW_SESSION => SESSION,
        _ => ITEM,
    }
}

/// Whether an operand is there for the formula and is atomic (or, if asked, a set). A constant is atomic.
fn operand_fits(attributes: &[Vec<Attribute>; 3], formula: usize, operand: u32, set: bool) -> bool {
    let (holder, number) = (operand / 32, operand % 32);
    if operand > 255 {
        return false;
    }
    if holder == HOLD_CONSTANT {
        return !set && number < 16;
    }
    if !holders_of(formula).contains(&holder) {
        return false;
    }
    match attributes[class_of(holder)].get(number as usize) {
        Some(attribute) => attribute.set == set,
        None => false,
    }
}

/// Whether a node may stand at a place of a formula.
pub fn node_fits(attributes: &[Vec<Attribute>; 3], formula: usize, place: u32, node: &Node) -> bool {
    let operand = |code, set| operand_fits(attributes, formula, code, set);
    match node.operator {
        0 | 1 => node.a == 0 && node.b == 0,
        2 => node.a < place && node.b == 0,
        3 | 4 => node.a < place && node.b < place,
        5..=7 => operand(node.a, false) && operand(node.b, false),
        8 => operand(node.a, false) && operand(node.b, true),
        9 | 10 => operand(node.a, true) && operand(node.b, true),
        _ => false,
    }
}

/// The list of an operand that fits; a constant has none.
fn list_of(attributes: &[Vec<Attribute>; 3], operand: u32) -> Option<u32> {
    let (holder, number) = (operand / 32, operand % 32);
    if holder == HOLD_CONSTANT {
        return None;
    }
    Some(attributes[class_of(holder)][number as usize].list)
}

/// Whether the lists of a node that may stand where it is agree: an attribute is only compared with one of the same
/// list, 0 being like any other; constants are compared with all.
pub fn lists_agree(attributes: &[Vec<Attribute>; 3], node: &Node) -> bool {
    if !(5..=10).contains(&node.operator) {
        return true;
    }
    match (list_of(attributes, node.a), list_of(attributes, node.b)) {
        (Some(one), Some(other)) => one == other,
        _ => true,
    }
}

/// A node at its place, or its number: 8 first, then 19.
pub fn judge_node(attributes: &[Vec<Attribute>; 3], formula: usize, place: u32, node: &Node) -> Result<(), u32> {
    if !node_fits(attributes, formula, place, node) {
        return Err(8);
    }
    if !lists_agree(attributes, node) {
        return Err(19);
    }
    Ok(())
}

/// What stands behind each holder; holders that the formula may not use have nothing.
struct Holders<'a>([&'a [Value]; 5]);

impl<'a> Holders<'a> {
    fn value(&self, operand: u32) -> &'a Value {
        &self.0[(operand / 32) as usize][(operand % 32) as usize]
    }

    fn number(&self, operand: u32) -> u32 {
        if operand / 32 == HOLD_CONSTANT {
            return operand % 32;
        }
        match self.value(operand) {
            Value::Number(number) => *number,
            Value::Set(_) => panic!("reading lets no set stand for an atomic"),
        }
    }

    fn set(&self, operand: u32) -> &'a [bool] {
        match self.value(operand) {
            Value::Set(members) => members,
            Value::Number(_) => panic!("reading lets no atomic stand for a set"),
        }
    }
}

/// What a node says, given what the nodes before it say.
fn node_says(node: &Node, holders: &Holders, said: &[bool]) -> bool {
    let Node { operator, a, b } = *node;
    match operator {
        0 => false,
        1 => true,
        2 => !said[a as usize],
        3 => said[a as usize] && said[b as usize],
        4 => said[a as usize] || said[b as usize],
        5 => holders.number(a) == holders.number(b),
        6 => holders.number(a) < holders.number(b),
        7 => holders.number(a) <= holders.number(b),
        8 => is_member(holders.number(a), holders.set(b)),
        9 => is_subset(holders.set(a), holders.set(b)),
        10 => is_subset(holders.set(a), holders.set(b)) && !is_subset(holders.set(b), holders.set(a)),
        _ => panic!("reading lets no other operator pass"),
    }
}

/// What a formula says: its nodes speak one after the other, the last one is the answer. Nodes refer to earlier ones
/// only and may be used many times; speaking in order, each speaks once.
fn says(rules: &Rules, formula: usize, holders: Holders) -> bool {
    let mut said = [false; 64];
    let nodes = &rules.formulas[formula];
    for (place, node) in nodes.iter().enumerate() {
        said[place] = node_says(node, &holders, &said[..place]);
    }
    said[nodes.len() - 1]
}

/// What a value says. The callers below only hand on values that are in the lists.
fn meaning(rules: &Rules, class: usize, value: u32) -> &[Value] {
    rules.meaning(class, u64::from(value)).expect("a value in the lists")
}

/// Whether a user may open a session with a new value.
pub fn may_open(rules: &Rules, user: u32, new: u32) -> bool {
    let user = meaning(rules, USER, rules.users[user as usize]);
    says(rules, OPEN, Holders([user, &[], meaning(rules, SESSION, new), &[], &[]]))
}

/// Whether a user may change a session from an old value to a new one.
pub fn may_change_session(rules: &Rules, user: u32, old: u32, new: u32) -> bool {
    let user = meaning(rules, USER, rules.users[user as usize]);
    let (old, new) = (meaning(rules, SESSION, old), meaning(rules, SESSION, new));
    says(rules, CHANGE_SESSION, Holders([user, old, new, &[], &[]]))
}

/// Whether a session of a value may make an item with a new value.
pub fn may_make(rules: &Rules, session: u32, new: u32) -> bool {
    let session = meaning(rules, SESSION, session);
    says(rules, MAKE, Holders([&[], session, &[], &[], meaning(rules, ITEM, new)]))
}

/// Whether a session of a value may change an item from an old value to a new one.
pub fn may_change_item(rules: &Rules, session: u32, old: u32, new: u32) -> bool {
    let session = meaning(rules, SESSION, session);
    let (old, new) = (meaning(rules, ITEM, old), meaning(rules, ITEM, new));
    says(rules, CHANGE_ITEM, Holders([&[], session, &[], old, new]))
}

/// Whether a session of a value has a permission on an item of a value.
pub fn may_access(rules: &Rules, permission: u32, session: u32, item: u32) -> bool {
    let (session, item) = (meaning(rules, SESSION, session), meaning(rules, ITEM, item));
    says(rules, ALLOW + permission as usize, Holders([&[], session, &[], item, &[]]))
}
