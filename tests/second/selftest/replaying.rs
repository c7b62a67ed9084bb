//! Replaying: P2 to P4 and the settled readings 21 and 22.

use super::{file, Checks, COUNTER};
use crate::second::monitor::row_of;
use crate::second::replay::replay;
use crate::second::run::{run, Step};
use crate::second::read::read;

/// The rows of P2.
fn leak() -> Vec<u64> {
    vec![row_of(1, 0, 0, 1), row_of(4, 0, 0, 0), row_of(5, 0, 0, 1), row_of(6, 0, 0, 0)]
}

/// Replays rows of the counter file in two cells of each sort; the number and the cells after.
fn counter(question: &[u8], rows: &[u64]) -> (u32, [u64; 2], [u64; 2]) {
    let (mut sessions, mut items) = ([7; 2], [7; 2]);
    let number = replay(&COUNTER, question, rows, &mut sessions, &mut items);
    (number, sessions, items)
}

pub fn all(checks: &mut Checks) {
    let done = ([65536 + 1, 7], [65536 + 1, 7]);
    checks.same("P2", counter(&[0x40, 0x80, 0x00], &leak()), (0, done.0, done.1));
    let mut without = leak();
    without.remove(2);
    checks.same("P3", counter(&[0x40, 0x80, 0x00], &without), (16, done.0, [65536, 7]));
    checks.same("P4", counter(&[0x41, 0x80, 0x00], &leak()), (17, done.0, done.1));
    checks.same("no rows", counter(&[0x40, 0x80, 0x00], &[]), (17, [7; 2], [7; 2]));
    checks.same("the last row is no grant", counter(&[0x40, 0x80, 0x00], &leak()[..3]), (17, done.0, done.1));
    let more = [leak(), vec![row_of(2, 0, 0, 0)]].concat();
    checks.same("the grant is not the last row", counter(&[0x40, 0x80, 0x00], &more), (17, [0, 7], done.1));
    let refused = [leak(), vec![row_of(6, 0, 0, 1)]].concat();
    checks.same("a refused last row", counter(&[0x40, 0x80, 0x00], &refused), (13, done.0, done.1));
    checks.same("a bad question", counter(&[0x40, 0x80], &leak()), (10, [7; 2], [7; 2]));
    let mut steps = leak();
    steps.insert(1, 0);
    checks.same("the first failing row", counter(&[0x40, 0x80, 0x00], &steps), (12, done.0, [7; 2]));
    checks.same("no cells for a row", replay(&COUNTER, &[0x40, 0x80, 0x00], &leak(), &mut [], &mut []), 15);
    checks.same("a bad file before a bad question", replay(&COUNTER[..32], &[], &[], &mut [], &mut []), 1);
    let many = [&leak()[..2], &[leak()[2]; 20]].concat();
    checks.same("many rows, no grant", counter(&[0x40, 0x80, 0x00], &many), (17, done.0, done.1));
    starting(checks);
    explicit(checks);
}

/// Files with starting sessions and items.
fn starting(checks: &mut Checks) {
    let bytes = file(
        "user u0 user u1 session of u0 session of u1 item item permission p
        open session: false change session: false make item: false change item: false allow p: true",
    );
    let mut sessions = [7; 3];
    let mut items = [7; 3];
    let empty = replay(&bytes, &[0x80, 0x80, 0x00], &[], &mut sessions, &mut items);
    checks.same("no rows: 17 and never 9", empty, 17);
    checks.same("the starting sessions are written", sessions, [65536, 65536 + 256, 7]);
    checks.same("the starting items are written", items, [65536, 65536, 7]);
    let mut short = [7; 1];
    checks.same("too few cells", replay(&bytes, &[0x80, 0x80, 0x00], &[0], &mut short, &mut items), 15);
    checks.same("then nothing is written", short, [7; 1]);
    checks.same("10 before 15", replay(&bytes, &[0xC0, 0x80, 0x00], &[0], &mut short, &mut items), 10);
    // Who and which item: question, actor, target, number.
    let cases = [
        ([0x00, 0x00, 0x00], 0, 0, 0),
        ([0x00, 0x00, 0x00], 1, 0, 17),
        ([0x01, 0x01, 0x00], 1, 1, 0),
        ([0x01, 0x01, 0x00], 1, 0, 17),
        ([0x41, 0x80, 0x00], 1, 0, 0),
        ([0x41, 0x80, 0x00], 0, 0, 17),
        ([0x80, 0x80, 0x00], 0, 1, 0),
        ([0x80, 0x00, 0x00], 0, 1, 17),
    ];
    for (question, actor, target, expected) in cases {
        let found = replay(&bytes, &question, &[row_of(6, actor, target, 0)], &mut sessions, &mut items);
        checks.same("who and which item", found, expected);
    }
}

/// P2 and P3 as runs on lists.
fn explicit(checks: &mut Checks) {
    let rules = read(&COUNTER).unwrap();
    let step = |kind, actor, target, value| Step { kind, actor, target, value };
    let leak = [step(1, 0, 0, 1), step(4, 0, 0, 0), step(5, 0, 0, 1), step(6, 0, 0, 0)];
    checks.same("P2 as a run", run(&rules, &leak).1, vec![true; 4]);
    let without = [leak[0], leak[1], leak[3]];
    checks.same("P3 as a run", run(&rules, &without).1, vec![true, true, false]);
    let huge = [step(1, 0, 0, 1 << 40), step(1, 1 << 40, 0, 0), step(9, 0, 0, 0), step(2, 0, u64::MAX, 0)];
    checks.same("steps of great numbers are refused", run(&rules, &huge).1, vec![false; 4]);
}
