//! Each input through both programs. A difference is a line of text.

use std::collections::BTreeMap;

use crate::library::{self, Live};
use crate::random::Random;
use crate::second::analyse::{analyse, Verdict};
use crate::second::monitor::{self, parts, Next};
use crate::second::read::{read, read_bits};
use crate::second::replay::replay;
use crate::second::rules::{RawRules, Rules};
use crate::second::write::file_of;
use crate::{generate, spoil, steps};

/// How often each number, known fault of a file, verdict and replayed leak was seen.
#[derive(Default)]
pub struct Tally {
    pub numbers: [u64; 20],
    pub ways: BTreeMap<(u32, &'static str), u64>,
    pub safe: u64,
    pub leak: u64,
    pub replayed: u64,
    pub steps: u64,
}

pub type Outcome = Result<(), String>;

pub fn hex(bytes: &[u8]) -> String {
    bytes.iter().map(|b| format!("{b:02x}")).collect()
}

/// The two are the same, or the text says of what and for which file they differ.
fn same<T: PartialEq + std::fmt::Debug>(what: &str, file: &[u8], ours: T, second: T) -> Outcome {
    if ours == second {
        return Ok(());
    }
    Err(format!("{what}: library {ours:?}, second program {second:?}, file {}", hex(file)))
}

/// Reading, and how many bits it takes. With a number other than 1, a file that ends with the byte of the last of these bits gives the same, unless
/// it was refused for bytes that follow, and is now accepted; one byte less gives 1.
fn bits(bytes: &[u8]) -> Outcome {
    let (rules, taken) = read_bits(bytes);
    let number = rules.err().unwrap_or(0);
    same("read", bytes, library::read(bytes), number)?;
    same("read with its bits", bytes, library::read_bits(bytes), (number, taken))?;
    if number < 2 {
        return same("all bits", bytes, taken, 8 * bytes.len() as u64);
    }
    let end = (taken as usize + 7) / 8;
    let cut = &bytes[..end];
    let accepted = number == 3 && end < bytes.len() && read(cut).is_ok();
    same("read, cut after the last bit", bytes, library::read_bits(cut), (if accepted { 0 } else { number }, taken))?;
    same("read, cut before the last bit", bytes, library::read_bits(&bytes[..end - 1]), (1, 8 * (end as u64 - 1)))
}

/// A file with a known fault.
fn fault(tally: &mut Tally, fault: &spoil::Fault) -> Outcome {
    *tally.ways.entry((fault.number, fault.way)).or_default() += 1;
    same(fault.way, &fault.bytes, library::read_bits(&fault.bytes), (fault.number, fault.bits))
}

/// Reading, and writing back into slices of several lengths.
fn file(tally: &mut Tally, random: &Random, bytes: &[u8]) -> Outcome {
    let rules = read(bytes);
    tally.numbers[library::read(bytes) as usize] += 1;
    bits(bytes)?;
    let written = rules.and_then(|rules| file_of(&RawRules::of(&rules)));
    let length = match random.below(3) {
        0 => random.below(bytes.len() as u64 + 1) as usize,
        1 => bytes.len(),
        _ => bytes.len() + random.below(9) as usize,
    };
    let before: Vec<u8> = (0..length).map(|_| random.word() as u8).collect();
    let mut out = before.clone();
    let (number, size) = library::write_back(bytes, &mut out);
    tally.numbers[number as usize] += 1;
    let mut expected = before;
    let second = match written {
        Err(number) => (number, 0),
        Ok(written) if written.len() > length => (11, 0),
        Ok(written) => {
            expected[..written.len()].copy_from_slice(&written);
            (0, written.len())
        }
    };
    same("write back", bytes, (number, size), second)?;
    same("bytes written back", bytes, out, expected)
}

/// The second program's step, as the library has it.
fn second_step(rules: &Rules, live: &mut Live, row: u64) -> u32 {
    let mut next = Next { session: live.next[0], item: live.next[1] };
    let result = monitor::step(rules, &mut live.sessions, &mut live.items, &mut next, row);
    live.next = [next.session, next.item];
    result.err().unwrap_or(0)
}

/// A start, or a state that no run left; then steps, one at a time and many at once.
fn live(tally: &mut Tally, random: &Random, raw: &RawRules, bytes: &[u8]) -> Outcome {
    let rules = read(bytes).map_err(|n| format!("a good file is refused by {n}"))?;
    let mut ours = steps::fresh(random, raw);
    let mut theirs = ours.clone();
    let number = library::start(bytes, &mut ours);
    tally.numbers[number as usize] += 1;
    match monitor::start(&rules, &mut theirs.sessions, &mut theirs.items) {
        Err(n) => same("start", bytes, number, n)?,
        Ok(next) => {
            theirs.next = [next.session, next.item];
            same("start", bytes, number, 0)?;
        }
    }
    same("cells after a start", bytes, &ours, &theirs)?;
    if number != 0 || random.once_in(3) {
        ours = steps::strange(random);
        theirs = ours.clone();
    }
    let mut many = ours.clone();
    let mut rows = Vec::new();
    for _ in 0..random.from_to(1, 24) {
        let row = steps::row(random, raw, &ours);
        let number = library::step(bytes, &mut ours, row);
        tally.numbers[number as usize] += 1;
        tally.steps += 1;
        same("step", bytes, number, second_step(&rules, &mut theirs, row))?;
        same("cells after a step", bytes, &ours, &theirs)?;
        if number == 0 || random.once_in(8) {
            rows.push(row);
        }
    }
    together(&rules, bytes, &rows, &mut many)
}

/// Many rows in one call are the rows one by one, up to the first refusal.
fn together(rules: &Rules, bytes: &[u8], rows: &[u64], live: &mut Live) -> Outcome {
    let mut theirs = live.clone();
    let mut second = (0, rows.len() as u64);
    for (k, row) in rows.iter().enumerate() {
        let number = second_step(rules, &mut theirs, *row);
        if number != 0 {
            second = (number, k as u64);
            break;
        }
    }
    same("steps", bytes, library::steps(bytes, live, rows), second)?;
    same("cells after steps", bytes, &*live, &theirs)
}

/// Both replays of the same rows, in cells with anything in them.
fn replays(tally: &mut Tally, random: &Random, bytes: &[u8], question: &[u8], rows: &[u64], room: [u64; 2]) -> Result<u32, String> {
    let (mut sessions, mut items) = (steps::cells(random, room[0]), steps::cells(random, room[1]));
    let (mut their_sessions, mut their_items) = (sessions.clone(), items.clone());
    let number = library::replay(bytes, question, rows, &mut sessions, &mut items);
    tally.numbers[number as usize] += 1;
    same("replay", bytes, number, replay(bytes, question, rows, &mut their_sessions, &mut their_items))?;
    same("cells after a replay", bytes, (sessions, items), (their_sessions, their_items))?;
    Ok(number)
}

/// A leak replays in cells that are just enough; cut and altered it gets the same number from both.
fn leak(tally: &mut Tally, random: &Random, raw: &RawRules, bytes: &[u8], question: &[u8], rows: &[u64]) -> Outcome {
    let kinds = |kind: u64| rows.iter().filter(|row| parts(**row).kind == kind).count() as u64;
    let enough = [u64::from(raw.sessions.count) + kinds(1), u64::from(raw.items.count) + kinds(4)];
    let number = replays(tally, random, bytes, question, rows, enough)?;
    same("the leak's replay", bytes, number, 0)?;
    tally.replayed += 1;
    let mut altered = rows.to_vec();
    let place = random.below(rows.len() as u64) as usize;
    let mut asked = question.to_vec();
    let mut room = enough;
    match random.below(6) {
        0 => altered.truncate(place),
        1 => drop(altered.remove(place)),
        2 => altered[place] ^= 1 << random.below(64),
        3 => altered.swap(place, 0),
        4 => asked = generate::question(random, raw),
        _ => room[place % 2] = room[place % 2].saturating_sub(1),
    }
    replays(tally, random, bytes, &asked, &altered, room).map(|_| ())
}

/// The number, the verdict (none where a number is given) and both counts, the rows untouched unless it is a leak, and the leak itself.
fn question(tally: &mut Tally, random: &Random, raw: &RawRules, bytes: &[u8]) -> Outcome {
    let question = generate::question(random, raw);
    let width = |class: usize| crate::second::rules::width(&generate::attributes_of(raw, class));
    let needed = crate::second::analyse::rows_needed(width(1), width(2));
    let length = match random.below(10) {
        0 => random.below(needed),
        1 => needed + random.below(3),
        _ => needed,
    };
    let before: Vec<u64> = (0..length).map(|k| k.wrapping_mul(0x1234_5678_9ABC_DEF1)).collect();
    let mut rows = before.clone();
    let told = library::analyse(bytes, &question, &mut rows);
    let second = analyse(bytes, &question, length as usize);
    tally.numbers[told.number as usize] += 1;
    let verdict = match second.verdict {
        Verdict::Refused => library::NONE,
        Verdict::Safe => library::SAFE,
        Verdict::Leak => library::LEAK,
    };
    same(
        "analyse",
        bytes,
        (told.number, told.verdict, told.pairs, told.values),
        (second.number, verdict, second.pairs, second.values),
    )?;
    let used = told.rows as usize;
    same("rows after the leak", bytes, &rows[used..], &before[used..])?;
    if second.verdict != Verdict::Leak {
        tally.safe += u64::from(second.verdict == Verdict::Safe);
        return same("rows unless it is a leak", bytes, used, 0);
    }
    tally.leak += 1;
    leak(tally, random, raw, bytes, &question, &rows[..used])
}

/// One input.
pub fn input(tally: &mut Tally, random: &Random) -> Outcome {
    let raw = generate::rules(random);
    let good = spoil::file_of(&raw);
    match random.below(8) {
        0 => {
            let bytes = match spoil::file(random, &raw) {
                None => good,
                Some(known) => {
                    fault(tally, &known)?;
                    known.bytes
                }
            };
            file(tally, random, &bytes)?;
            question(tally, random, &raw, &bytes)
        }
        1 => {
            let mut bytes = good;
            for _ in 0..random.from_to(1, 3) {
                let place = random.below(bytes.len() as u64) as usize;
                bytes[place] ^= 1 << random.below(8);
            }
            file(tally, random, &bytes)
        }
        2 => file(tally, random, &good),
        3 | 4 => {
            bits(&good)?;
            live(tally, random, &raw, &good)
        }
        _ => {
            bits(&good)?;
            question(tally, random, &raw, &good)
        }
    }
}
