//! Rules in memory through the program `rules_case`, which prints the bytes or the number.

use std::io::Write;
use std::process::{Command, Stdio};

use crate::compare::{hex, Outcome, Tally};
use crate::random::Random;
use crate::second::rules::RawRules;
use crate::second::write::write;
use crate::{generate, spoil};

/// The record of rules, and how long a slice the writer is lent.
fn record(raw: &RawRules, length: u16) -> Vec<u8> {
    let mut bytes = Vec::new();
    for class in &raw.classes {
        bytes.push(class.count);
        bytes.extend(class.kinds);
        bytes.extend(class.sizes);
        bytes.extend(class.lists);
    }
    bytes.push(raw.users.count);
    bytes.extend(raw.users.values);
    bytes.extend([0; 16]);
    bytes.push(raw.sessions.count);
    bytes.extend(raw.sessions.owners);
    bytes.extend(raw.sessions.values);
    bytes.push(raw.items.count);
    bytes.extend(raw.items.values);
    bytes.push(raw.permissions);
    bytes.extend(raw.lengths);
    bytes.extend(raw.nodes.iter().flatten().flat_map(|node| node.to_le_bytes()));
    bytes.extend(length.to_le_bytes());
    bytes
}

/// What the second program says of the rules, as `rules_case` prints it.
fn line(tally: &mut Tally, raw: &RawRules, length: u16) -> String {
    let mut out = vec![0; length as usize];
    match write(raw, &mut out) {
        Ok(size) => hex(&out[..size]),
        Err(number) => {
            tally.numbers[number as usize] += 1;
            format!("REFUSED {number}")
        }
    }
}

/// What the program prints for these records, a line each.
fn printed(program: &str, records: Vec<u8>) -> Vec<String> {
    let mut child = Command::new(program)
        .stdin(Stdio::piped())
        .stdout(Stdio::piped())
        .spawn()
        .expect("rules_case");
    let mut input = child.stdin.take().expect("its standard input");
    let feed = std::thread::spawn(move || input.write_all(&records));
    let output = child.wait_with_output().expect("its output");
    feed.join().expect("a thread").expect("all records are taken");
    String::from_utf8(output.stdout).expect("text").lines().map(String::from).collect()
}

/// So many rules, good and spoiled, through both writers.
pub fn many(tally: &mut Tally, random: &Random, program: &str, count: u64) -> Outcome {
    let mut records = Vec::new();
    let mut expected = Vec::new();
    for _ in 0..count {
        let good = generate::rules(random);
        let raw = if random.once_in(4) { good } else { spoil::rules(random, &good) };
        let length = if random.once_in(6) { random.below(64) } else { 4096 } as u16;
        records.extend(record(&raw, length));
        expected.push(line(tally, &raw, length));
    }
    let lines = printed(program, records);
    if lines.len() != expected.len() {
        return Err(format!("rules_case printed {} lines for {} rules", lines.len(), expected.len()));
    }
    match lines.iter().zip(&expected).position(|(ours, second)| ours != second) {
        None => Ok(()),
        Some(k) => Err(format!("rules {k}: rules_case {}, second program {}", lines[k], expected[k])),
    }
}
