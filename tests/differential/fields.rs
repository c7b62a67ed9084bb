//! The fields of a file that can be at fault, and which bits they are: a writer that judges nothing and notes where each field ends.

use std::ops::Range;

use crate::second::rules::RawRules;

/// A field, with its place.
#[derive(Clone, Copy, PartialEq, Eq, Debug)]
pub enum Field {
    /// One of the head's seven counts.
    Count(usize),
    Spare,
    /// Parts of an attribute, by its class and its number there.
    Size(usize, usize),
    List(usize, usize),
    Last(usize, usize),
    /// The end of a class's attributes.
    Class(usize),
    /// What a holder has of an attribute: the class, the holder's number and the attribute's.
    Value(usize, usize, usize),
    /// The user of a starting session.
    Owner(usize),
    /// The node count of a formula.
    Length(usize),
    /// A formula's node.
    Node(usize, usize),
    Filling,
}

/// The bits of a file, and those of each field.
pub struct Written {
    pub bits: Vec<bool>,
    fields: Vec<(Field, Range<usize>)>,
}

impl Written {
    /// Adds bits, the most significant first; a number too great is cut down.
    fn add(&mut self, width: u32, number: u32) {
        self.bits.extend((0..width).rev().map(|k| number >> k & 1 == 1));
    }

    fn field(&mut self, field: Field, width: u32, number: u32) {
        let start = self.bits.len();
        self.add(width, number);
        self.fields.push((field, start..self.bits.len()));
    }

    /// The value of a holder, attribute by attribute.
    fn value(&mut self, class: usize, holder: usize, widths: &[u32], value: u8) {
        let mut left: u32 = widths.iter().sum();
        for (k, width) in widths.iter().enumerate() {
            left -= width;
            self.field(Field::Value(class, holder, k), *width, u32::from(value) >> left);
        }
    }

    /// The bits of a field that the file has.
    pub fn place(&self, field: Field) -> Range<usize> {
        let found = self.fields.iter().find(|(one, _)| *one == field);
        found.expect("a field of the file").1.clone()
    }

    pub fn bytes(&self) -> Vec<u8> {
        self.bits.chunks(8).map(|byte| byte.iter().fold(0, |sum, bit| sum * 2 + *bit as u8)).collect()
    }
}

fn width(kind: u8, size: u8) -> u32 {
    match kind {
        0 if size == 0 => 0,
        0 => 8 - (size - 1).leading_zeros(),
        _ => u32::from(size),
    }
}

/// The file of rules, nothing judged: with a fault in the rules the file has that fault.
pub fn written(raw: &RawRules) -> Written {
    let mut out = Written { bits: Vec::new(), fields: Vec::new() };
    let [user, session, item] = [0, 1, 2].map(|class| raw.classes[class].count);
    let counts = [user, session, item, raw.users.count, raw.sessions.count, raw.items.count, raw.permissions];
    for (k, width) in [4, 4, 4, 5, 6, 6, 4].into_iter().enumerate() {
        out.field(Field::Count(k), width, u32::from(counts[k]));
    }
    out.field(Field::Spare, 7, 0);
    let mut widths = [Vec::new(), Vec::new(), Vec::new()];
    for (c, class) in raw.classes.iter().enumerate() {
        for k in 0..class.count.min(8) as usize {
            out.add(1, u32::from(class.kinds[k]));
            out.field(Field::Size(c, k), 5, u32::from(class.sizes[k]));
            out.field(Field::List(c, k), 5, u32::from(class.lists[k]));
            out.field(Field::Last(c, k), 1, 0);
            widths[c].push(width(class.kinds[k], class.sizes[k]));
        }
        out.field(Field::Class(c), 0, 0);
    }
    for u in 0..raw.users.count.min(16) as usize {
        out.value(0, u, &widths[0], raw.users.values[u]);
    }
    for k in 0..raw.sessions.count.min(32) as usize {
        out.field(Field::Owner(k), 4, u32::from(raw.sessions.owners[k]));
        out.value(1, k, &widths[1], raw.sessions.values[k]);
    }
    for k in 0..raw.items.count.min(32) as usize {
        out.value(2, k, &widths[2], raw.items.values[k]);
    }
    for f in 0..4 + raw.permissions.min(8) as usize {
        out.field(Field::Length(f), 8, u32::from(raw.lengths[f]));
        for (k, node) in raw.nodes[f][..raw.lengths[f].min(64) as usize].iter().enumerate() {
            out.field(Field::Node(f, k), 20, *node);
        }
    }
    let filling = (8 - out.bits.len() % 8) % 8;
    out.field(Field::Filling, filling as u32, 0);
    out
}
