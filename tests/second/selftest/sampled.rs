//! Random files: reading and writing, text and back, steps on cells beside runs on lists, closures beside all runs.

use super::random::{question, rules, Bounds, Random};
use super::Checks;
use crate::second::analyse::{analyse, rows_needed, Verdict};
use crate::second::exhaustive::exhaustive;
use crate::second::leak::leak;
use crate::second::monitor::{item_there, row_of, session_there, start, step};
use crate::second::read::read;
use crate::second::replay::replay;
use crate::second::rules::{width, RawRules, ITEM, SESSION};
use crate::second::run::{begin, carry_out, item, open_session, run, Step};
use crate::second::text::{assemble, list};
use crate::second::write::{file_of, write};

/// Anything that a file can hold.
const ANY: Bounds =
    Bounds { attributes: 8, width: 8, users: 16, sessions: 32, items: 32, permissions: 8, nodes: 64 };

/// Few values, few holders, short formulas.
const SMALL: Bounds =
    Bounds { attributes: 2, width: 3, users: 3, sessions: 3, items: 3, permissions: 2, nodes: 6 };

/// So little that all runs of some length can be tried.
const TINY: Bounds =
    Bounds { attributes: 1, width: 1, users: 2, sessions: 1, items: 1, permissions: 1, nodes: 5 };

/// One user and little else, but chains of changes.
const CHAINS: Bounds =
    Bounds { attributes: 1, width: 2, users: 1, sessions: 1, items: 2, permissions: 1, nodes: 4 };

pub fn all(checks: &mut Checks) {
    round_trips(checks, 600);
    cut_and_bent(checks, 300);
    cells_and_lists(checks, 1000);
    closures_bound_runs(checks, 3000);
    closures_meet_runs(checks, 600);
    leaks_replay(checks, 2000);
}

/// Reading what was written and writing it again, and text and back.
fn round_trips(checks: &mut Checks, count: u32) {
    let mut random = Random(0x1234_5678_9ABC_DEF1);
    for number in 0..count {
        let raw = rules(&mut random, if number % 2 == 0 { &ANY } else { &SMALL });
        let bytes = file_of(&raw).unwrap();
        let mut out = vec![0xA5; bytes.len() + 1];
        checks.same("the length written", write(&raw, &mut out), Ok(bytes.len()));
        checks.holds("the bytes written", out[..bytes.len()] == bytes && out[bytes.len()] == 0xA5);
        let again = read(&bytes).map(|rules| file_of(&RawRules::of(&rules)));
        checks.holds("read, then written", again == Ok(Ok(bytes.clone())));
        let text = list(&bytes).unwrap();
        checks.holds("listed, then assembled", assemble(&text) == Ok(bytes));
    }
}

/// Files that end early give 1, with a byte more 3; whatever else reads is written to the same bytes again.
fn cut_and_bent(checks: &mut Checks, count: u32) {
    let mut random = Random(0x0F1E_2D3C_4B5A_6978);
    for _ in 0..count {
        let mut bytes = file_of(&rules(&mut random, &SMALL)).unwrap();
        let end = random.below(bytes.len() as u32) as usize;
        checks.same("a file cut off", read(&bytes[..end]).err(), Some(1));
        checks.same("a byte more", read(&[&bytes[..], &[0]].concat()).err(), Some(3));
        let bit = random.below(bytes.len() as u32 * 8) as usize;
        bytes[bit / 8] ^= 128 >> (bit % 8);
        if let Ok(rules) = read(&bytes) {
            checks.same("a bent file written again", file_of(&RawRules::of(&rules)), Ok(bytes));
        }
    }
}

/// A random step, mostly of small numbers near those that are there.
fn random_step(random: &mut Random, sessions: u32, items: u32) -> Step {
    let kind = random.between(0, 7);
    let actor = random.below(if kind <= 3 { 4 } else { sessions + 1 });
    let target = match kind {
        1 => sessions - random.below(2).min(sessions),
        4 => items - random.below(2).min(items),
        2 | 3 => random.below(sessions + 1),
        _ => random.below(items + 1),
    };
    let value = if kind == 2 { random.below(8) / 7 } else { random.below(9) };
    Step { kind: u64::from(kind), actor: u64::from(actor), target: u64::from(target), value: u64::from(value) }
}

/// Takes random steps on cells and on lists alike: with cells to spare, the same steps are carried out.
fn cells_and_lists(checks: &mut Checks, count: u32) {
    let mut random = Random(0xFEDC_BA98_7654_3211);
    for _ in 0..count {
        let rules = read(&file_of(&rules(&mut random, &SMALL)).unwrap()).unwrap();
        let (mut sessions, mut items) = ([0; 64], [0; 64]);
        let mut next = start(&rules, &mut sessions, &mut items).unwrap();
        let mut state = begin(&rules);
        let mut alike = true;
        for _ in 0..40 {
            let taken = random_step(&mut random, state.sessions.len() as u32, state.items.len() as u32);
            let row = row_of(taken.kind, taken.actor, taken.target, taken.value);
            let done = step(&rules, &mut sessions, &mut items, &mut next, row).is_ok();
            alike &= done == carry_out(&rules, &mut state, &taken);
            alike &= (next.session, next.item) == (state.sessions.len() as u64, state.items.len() as u64);
            alike &= (0..64).all(|i| session_there(&rules, &sessions, &next, i) == open_session(&state, i));
            alike &= (0..64).all(|i| item_there(&rules, &items, &next, i) == item(&state, i));
        }
        checks.holds("steps on cells and on lists", alike);
    }
}

/// What short runs show is never more than what the closures say. A session of at most four values is opened and
/// brought anywhere in four steps, so the pairs are the same.
fn closures_bound_runs(checks: &mut Checks, count: u32) {
    let mut random = Random(0x9E37_79B9_7F4A_7C15);
    for number in 0..count {
        let raw = rules(&mut random, if number % 2 == 0 { &TINY } else { &CHAINS });
        let (bytes, asked) = (file_of(&raw).unwrap(), question(&mut random, &raw));
        let (said, shown) = (analyse(&bytes, &asked, 8192), exhaustive(&bytes, &asked, 4));
        checks.same("refusals by runs and by closures", said.number, shown.number);
        checks.holds("a leak by runs is a leak by closures", !shown.leak || said.verdict == Verdict::Leak);
        checks.same("pairs by runs", shown.pairs.len() as u64, said.pairs);
        checks.holds("values by runs", shown.values.len() as u64 <= said.values);
    }
}

/// The most steps before the grant of a shortest leak of tiny rules, whose sessions and items have two values: a
/// session opened and changed for the asker, for the maker of the item and for its changer, and the making and the
/// changing.
const LONGEST: u32 = 8;

/// Runs long enough show all that the closures say.
fn closures_meet_runs(checks: &mut Checks, count: u32) {
    let mut random = Random(0xD1B5_4A32_D192_ED03);
    let mut compared = 0;
    while compared < count {
        let raw = rules(&mut random, &TINY);
        let (bytes, asked) = (file_of(&raw).unwrap(), question(&mut random, &raw));
        let said = analyse(&bytes, &asked, 8192);
        // Files that are refused, or in which nobody opens a session, show little.
        if said.number != 0 || said.pairs == 0 {
            continue;
        }
        compared += 1;
        let shown = exhaustive(&bytes, &asked, LONGEST);
        checks.same("the verdict", shown.leak, said.verdict == Verdict::Leak);
        checks.same("the pairs", shown.pairs.len() as u64, said.pairs);
        checks.same("the values", shown.values.len() as u64, said.values);
    }
}

/// A verdict of leak is right: its steps are carried out on lists, replay on cells, and fit the rows that the paper
/// asks for.
fn leaks_replay(checks: &mut Checks, count: u32) {
    let mut random = Random(0xA076_1D64_78BD_642F);
    for _ in 0..count {
        let raw = rules(&mut random, &SMALL);
        let (bytes, asked) = (file_of(&raw).unwrap(), question(&mut random, &raw));
        let (said, steps) = (analyse(&bytes, &asked, 8192), leak(&bytes, &asked, 8192));
        checks.same("a leak has steps", steps.is_some(), said.verdict == Verdict::Leak);
        let steps = match steps {
            Some(steps) => steps,
            None => continue,
        };
        let rules = read(&bytes).unwrap();
        checks.holds("every step is carried out", run(&rules, &steps).1.into_iter().all(|done| done));
        let rows: Vec<u64> = steps.iter().map(|step| row_of(step.kind, step.actor, step.target, step.value)).collect();
        let given = |kind| steps.iter().filter(|step| step.kind == kind).count();
        let mut sessions = vec![0; rules.sessions.len() + given(1)];
        let mut items = vec![0; rules.items.len() + given(4)];
        checks.same("a leak replays", replay(&bytes, &asked, &rows, &mut sessions, &mut items), 0);
        let without = replay(&bytes, &asked, &rows[..rows.len() - 1], &mut sessions, &mut items);
        checks.same("a leak without its grant", without, 17);
        let needed = rows_needed(width(&rules.attributes[SESSION]), width(&rules.attributes[ITEM]));
        checks.holds("a leak fits its rows", rows.len() as u64 <= needed);
    }
}
