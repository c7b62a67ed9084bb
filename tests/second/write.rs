//! Writing rules that stand in memory: first judged in reading order, then written.

use super::formula::judge_node;
use super::rules::{size_agrees, width, Attribute, Node, RawClass, RawRules, ALLOW, ITEM, SESSION, USER};
use super::value::decode;

/// The number a fault has, unless all is well.
fn demand(well: bool, number: u32) -> Result<(), u32> {
    if well {
        Ok(())
    } else {
        Err(number)
    }
}

/// The head counts, in reading order.
fn judge_head(raw: &RawRules) -> Result<(), u32> {
    for class in &raw.classes {
        demand(class.count <= 8, 2)?;
    }
    demand((1..=16).contains(&raw.users.count), 2)?;
    demand(raw.sessions.count <= 32, 2)?;
    demand(raw.items.count <= 32, 2)?;
    demand((1..=8).contains(&raw.permissions), 2)
}

/// The attributes of one class, which join those of the classes before it. A kind that is neither 0 nor 1 is judged
/// with the size; a list number that 5 bits don't hold gets 18, as a size does that differs from an earlier one.
fn judge_class(class: &RawClass, earlier: &mut Vec<Attribute>) -> Result<Vec<Attribute>, u32> {
    let first = earlier.len();
    for place in 0..class.count as usize {
        let (kind, size) = (class.kinds[place], u32::from(class.sizes[place]));
        let most = if kind == 0 { 16 } else { 8 };
        demand(kind <= 1 && size >= 1 && size <= most, 4)?;
        let attribute = Attribute { set: kind == 1, size, list: u32::from(class.lists[place]) };
        demand(attribute.list <= 31 && size_agrees(earlier, &attribute), 18)?;
        earlier.push(attribute);
    }
    let attributes = earlier[first..].to_vec();
    demand(width(&attributes) <= 8, 5)?;
    Ok(attributes)
}

/// A holder's value.
fn judge_value(attributes: &[Attribute], value: u8) -> Result<(), u32> {
    demand(decode(attributes, u64::from(value)).is_some(), 6)
}

/// A node as it stands in memory, taken apart. The operator may be any number.
fn node_of(number: u32) -> Node {
    Node { operator: number / 65536, a: number / 256 % 256, b: number % 256 }
}

fn judge_formula(raw: &RawRules, attributes: &[Vec<Attribute>; 3], formula: usize) -> Result<(), u32> {
    demand((1..=64).contains(&raw.lengths[formula]), 8)?;
    for place in 0..raw.lengths[formula] {
        let node = node_of(raw.nodes[formula][place as usize]);
        judge_node(attributes, formula, u32::from(place), &node)?;
    }
    Ok(())
}

/// The first fault in reading order, or the attributes of the three classes.
fn judge(raw: &RawRules) -> Result<[Vec<Attribute>; 3], u32> {
    judge_head(raw)?;
    let mut earlier = Vec::new();
    let user_attributes = judge_class(&raw.classes[USER], &mut earlier)?;
    let session_attributes = judge_class(&raw.classes[SESSION], &mut earlier)?;
    let item_attributes = judge_class(&raw.classes[ITEM], &mut earlier)?;
    let attributes = [user_attributes, session_attributes, item_attributes];
    for place in 0..raw.users.count as usize {
        judge_value(&attributes[USER], raw.users.values[place])?;
    }
    for place in 0..raw.sessions.count as usize {
        demand(raw.sessions.owners[place] < raw.users.count, 7)?;
        judge_value(&attributes[SESSION], raw.sessions.values[place])?;
    }
    for place in 0..raw.items.count as usize {
        judge_value(&attributes[ITEM], raw.items.values[place])?;
    }
    for formula in 0..ALLOW + raw.permissions as usize {
        judge_formula(raw, &attributes, formula)?;
    }
    Ok(attributes)
}

/// The bits written so far.
struct Writer {
    bits: Vec<bool>,
}

impl Writer {
    /// Adds a field, its most significant bit first.
    fn field(&mut self, width: u32, number: u32) {
        for place in (0..width).rev() {
            self.bits.push((number >> place) & 1 == 1);
        }
    }

    /// The bytes, the last one filled with zero bits.
    fn bytes(&self) -> Vec<u8> {
        let byte = |bits: &[bool]| (0..8).fold(0, |sum, place| sum * 2 + (bits.get(place) == Some(&true)) as u8);
        self.bits.chunks(8).map(byte).collect()
    }
}

fn write_head(writer: &mut Writer, raw: &RawRules) {
    for class in &raw.classes {
        writer.field(4, u32::from(class.count));
    }
    writer.field(5, u32::from(raw.users.count));
    writer.field(6, u32::from(raw.sessions.count));
    writer.field(6, u32::from(raw.items.count));
    writer.field(4, u32::from(raw.permissions));
    writer.field(7, 0);
}

fn write_formulas(writer: &mut Writer, raw: &RawRules) {
    for formula in 0..ALLOW + raw.permissions as usize {
        writer.field(8, u32::from(raw.lengths[formula]));
        for place in 0..raw.lengths[formula] as usize {
            let node = node_of(raw.nodes[formula][place]);
            writer.field(4, node.operator);
            writer.field(8, node.a);
            writer.field(8, node.b);
        }
    }
}

/// The file of these rules, or the number of their first fault.
pub fn file_of(raw: &RawRules) -> Result<Vec<u8>, u32> {
    let attributes = judge(raw)?;
    let mut writer = Writer { bits: Vec::new() };
    write_head(&mut writer, raw);
    for attribute in attributes.iter().flatten() {
        writer.field(1, attribute.set as u32);
        writer.field(5, attribute.size);
        writer.field(5, attribute.list);
        writer.field(1, 0);
    }
    let widths = [width(&attributes[USER]), width(&attributes[SESSION]), width(&attributes[ITEM])];
    for place in 0..raw.users.count as usize {
        writer.field(widths[USER], u32::from(raw.users.values[place]));
    }
    for place in 0..raw.sessions.count as usize {
        writer.field(4, u32::from(raw.sessions.owners[place]));
        writer.field(widths[SESSION], u32::from(raw.sessions.values[place]));
    }
    for place in 0..raw.items.count as usize {
        writer.field(widths[ITEM], u32::from(raw.items.values[place]));
    }
    write_formulas(&mut writer, raw);
    Ok(writer.bytes())
}

/// Writes the file of these rules to the front of a byte slice and returns its length; 11 if the slice is too short.
/// When a number is given, the slice is unchanged.
pub fn write(rules: &RawRules, out: &mut [u8]) -> Result<usize, u32> {
    let file = file_of(rules)?;
    if file.len() > out.len() {
        return Err(11);
    }
    out[..file.len()].copy_from_slice(&file);
    Ok(file.len())
}
