//! Values of attributes, taken apart and put together.

use super::rules::Attribute;

/// What one attribute of a holder is: a number, or a set, member i being in it if place i is true.
#[derive(Clone, Debug, PartialEq, Eq)]
pub enum Value {
    Number(u32),
    Set(Vec<bool>),
}

/// What the bits of one attribute say. The first bit of a set is its most significant one and stands for member 0.
/// Nothing, if the code is not in the attribute's list.
pub fn decode_one(attribute: &Attribute, code: u64) -> Option<Value> {
    if code >= 1 << attribute.width() {
        return None;
    }
    if !attribute.set {
        return if code < u64::from(attribute.size) { Some(Value::Number(code as u32)) } else { None };
    }
    let mut members = Vec::new();
    for member in 0..attribute.size {
        let bits_after = attribute.size - 1 - member;
        members.push((code >> bits_after) & 1 == 1);
    }
    Some(Value::Set(members))
}

/// What a holder's value says of each of its attributes, or nothing if it is not in the lists.
/// The first attribute stands in the most significant bits.
pub fn decode(attributes: &[Attribute], value: u64) -> Option<Vec<Value>> {
    let mut rest = value;
    let mut backwards = Vec::new();
    for attribute in attributes.iter().rev() {
        let places = 1u64 << attribute.width();
        backwards.push(decode_one(attribute, rest % places)?);
        rest /= places;
    }
    if rest != 0 {
        return None;
    }
    backwards.reverse();
    Some(backwards)
}

/// The bits of one attribute's value.
pub fn encode_one(value: &Value) -> u32 {
    match value {
        Value::Number(number) => *number,
        Value::Set(members) => members.iter().fold(0, |code, member| code * 2 + *member as u32),
    }
}

/// The value of a holder whose attributes are these.
pub fn encode(attributes: &[Attribute], values: &[Value]) -> u32 {
    let pairs = attributes.iter().zip(values);
    pairs.fold(0, |code, (attribute, value)| (code << attribute.width()) + encode_one(value))
}

/// Whether a number is a member of a set; a number beyond the set's size is not.
pub fn is_member(number: u32, set: &[bool]) -> bool {
    set.get(number as usize) == Some(&true)
}

/// Whether every member of one set is a member of another.
pub fn is_subset(one: &[bool], other: &[bool]) -> bool {
    (0..one.len()).all(|member| !one[member] || is_member(member as u32, other))
}
