//! The records that tests/vectors/make.py makes of its table, and a line for each, as the program case_rules should
//! print it. Here the second program answers.

use crate::second::read::{read, read_bits};
use crate::second::rules::{Attribute, RawRules};
use crate::second::value::{decode_one, is_member, is_subset, Value};
use crate::second::write::{file_of, write};

/// What is left of the records.
struct Records<'a> {
    left: &'a [u8],
}

impl<'a> Records<'a> {
    fn bytes(&mut self, count: usize) -> &'a [u8] {
        let (front, left) = self.left.split_at(count);
        self.left = left;
        front
    }

    /// A number of so many bytes, most significant first.
    fn number(&mut self, bytes: usize) -> usize {
        self.bytes(bytes).iter().fold(0, |sum, byte| sum * 256 + usize::from(*byte))
    }

    /// Bytes after their length.
    fn sized(&mut self) -> &'a [u8] {
        let length = self.number(2);
        self.bytes(length)
    }
}

/// Puts a value into a part of rules; the parts are in the order that make.py has them in.
fn change(raw: &mut RawRules, part: usize, index: usize, value: u32) {
    let byte = value as u8;
    match part {
        0..=2 => raw.classes[part].count = byte,
        3 => raw.users.count = byte,
        4 => raw.sessions.count = byte,
        5 => raw.items.count = byte,
        6 => raw.permissions = byte,
        7 | 9 | 11 => raw.classes[(part - 7) / 2].kinds[index] = byte,
        8 | 10 | 12 => raw.classes[(part - 8) / 2].sizes[index] = byte,
        13 => raw.users.values[index] = byte,
        14 => raw.sessions.owners[index] = byte,
        15 => raw.sessions.values[index] = byte,
        16 => raw.items.values[index] = byte,
        17 => raw.lengths[index] = byte,
        18 => raw.nodes[index / 64][index % 64] = value,
        _ => raw.classes[part - 19].lists[index] = byte,
    }
}

/// A file that is read and written back.
fn reading(records: &mut Records) -> String {
    let file = records.sized();
    let (rules, bits) = read_bits(file);
    match rules {
        Err(number) => format!("{bits} bits, refused {number}"),
        Ok(rules) => {
            let written = file_of(&RawRules::of(&rules)).expect("rules that were read");
            let same = if written == file { "same" } else { "other" };
            format!("{bits} bits, read, ok {} {same}", written.len())
        }
    }
}

/// Rules that are changed and written.
fn writing(records: &mut Records) -> String {
    let mut raw = RawRules::of(&read(records.sized()).expect("a good file"));
    let mut out = vec![0xA5; records.number(2)];
    for _ in 0..records.number(1) {
        let (part, index, value) = (records.number(1), records.number(2), records.number(4));
        change(&mut raw, part, index, value as u32);
    }
    let expected = records.sized();
    match write(&raw, &mut out) {
        Err(number) => format!("refused {number}"),
        Ok(length) => {
            let same = &out[..length] == expected && out[length..].iter().all(|byte| *byte == 0xA5);
            format!("ok {length} {}", if same { "same" } else { "other" })
        }
    }
}

/// A set of a size; the number may have other bits above it.
fn set(size: u32, number: u32) -> Vec<bool> {
    match decode_one(&Attribute { set: true, size, list: 0 }, u64::from(number % (1 << size))) {
        Some(Value::Set(members)) => members,
        _ => Vec::new(),
    }
}

/// A question on sets.
fn sets(records: &mut Records) -> String {
    let kind = records.number(1);
    let [size, number, third, fourth] = [0; 4].map(|_| records.number(1) as u32);
    let one = set(size, number);
    let answer = match kind {
        0 => is_member(third, &one),
        _ => {
            let other = set(third, fourth);
            is_subset(&one, &other) && (kind == 1 || !is_subset(&other, &one))
        }
    };
    (if answer { "yes" } else { "no" }).to_string()
}

/// A line for each record, with its number.
pub fn lines(input: &[u8]) -> String {
    let mut records = Records { left: input };
    let mut lines = String::new();
    let mut count = 0;
    while !records.left.is_empty() {
        count += 1;
        let line = match records.number(1) {
            0 => reading(&mut records),
            1 => writing(&mut records),
            _ => sets(&mut records),
        };
        lines += &format!("{count} {line}\n");
    }
    lines + &format!("{count} cases\n")
}
