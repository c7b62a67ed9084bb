//! Analysing: P1, P2, P5, P9, the settled readings 9 to 13, and the slips that the paper warns of.

use super::{file, Checks, COUNTER};
use crate::rights;
use crate::second::analyse::{analyse, rows_needed, Answer, Verdict};

/// Rows enough for every question here.
const ENOUGH: usize = 8192;

fn safe(pairs: u64, values: u64) -> Answer {
    Answer { number: 0, verdict: Verdict::Safe, pairs, values }
}

fn leak(pairs: u64, values: u64) -> Answer {
    Answer { verdict: Verdict::Leak, ..safe(pairs, values) }
}

fn refused(number: u32) -> Answer {
    Answer { number, verdict: Verdict::Refused, pairs: 0, values: 0 }
}

pub fn all(checks: &mut Checks) {
    checks.same("P1", analyse(&COUNTER, &[0x41, 0x80, 0x00], ENOUGH), safe(3, 2));
    checks.same("P2", analyse(&COUNTER, &[0x40, 0x80, 0x00], ENOUGH), leak(3, 2));
    checks.same("P5, 9 rows", analyse(&COUNTER, &[0x41, 0x80, 0x00], 9), safe(3, 2));
    checks.same("P5, 8 rows", analyse(&COUNTER, &[0x41, 0x80, 0x00], 8), refused(11));
    checks.same("P5, 8 rows, a leak", analyse(&COUNTER, &[0x40, 0x80, 0x00], 8), refused(11));
    checks.same("P9", rows_needed(8, 8), 66_049);
    printed(checks);
    questions(checks);
    nine(checks);
    counts(checks);
    slips(checks);
}

/// Readings 9 and 13: what the program prints.
fn printed(checks: &mut Checks) {
    let with = |question: &[u8]| rights(&[question, &COUNTER].concat());
    checks.same("the paper's line", with(&[0x41, 0x80, 0x00]), "SAFE 3 2\n".to_string());
    checks.same("a refusal", with(&[0xC0, 0x80, 0x00]), "REFUSED 10\n".to_string());
    for length in 0..3 {
        checks.same("fewer than 3 bytes", rights(&vec![0x80; length]), "REFUSED 1\n".to_string());
    }
    checks.same("a question alone", rights(&[0x41, 0x80, 0x00]), "REFUSED 1\n".to_string());
}

/// Readings 9 and 11: layout and order.
fn questions(checks: &mut Checks) {
    // The counter file has 2 users, no starting session, no starting item, one permission.
    let bad: [&[u8]; 15] = [
        &[0x00, 0x80, 0x00],
        &[0x42, 0x80, 0x00],
        &[0x81, 0x80, 0x00],
        &[0xC0, 0x80, 0x00],
        &[0x40, 0x00, 0x00],
        &[0x40, 0x81, 0x00],
        &[0x40, 0xC0, 0x00],
        &[0x40, 0x80, 0x10],
        &[0x40, 0x80, 0x01],
        &[0x40, 0x80, 0x08],
        &[],
        &[0x41],
        &[0x41, 0x80],
        &[0x41, 0x80, 0x00, 0x00],
        &[0x40, 0x40, 0x00],
    ];
    for question in bad {
        checks.same("a bad question", analyse(&COUNTER, question, ENOUGH), refused(10));
        checks.same("10 before 11", analyse(&COUNTER, question, 0), refused(10));
    }
    checks.same("a bad file before a bad question", analyse(&COUNTER[..32], &[], 0), refused(1));
    let odd = file(
        "session attribute n: one of 3 item attribute n: one of 5 user u permission p
        open session: true change session: true make item: true change item: true allow p: false",
    );
    checks.same("rows go by widths 2 and 3", analyse(&odd, &[0x80, 0x80, 0x00], 45), safe(3, 5));
    checks.same("one row less", analyse(&odd, &[0x80, 0x80, 0x00], 44), refused(11));
}

/// Reading 10: starting sessions that their users could not bring about.
fn nine(checks: &mut Checks) {
    let text = |open: &str, change: &str, sessions: &str| {
        file(&format!(
            "user attribute n: one of 3 session attribute n: one of 3
            user u0: n = 0 user u1: n = 1 {sessions} permission p
            open session: {open} change session: {change} make item: true change item: true allow p: false"
        ))
    };
    let mut answer = |open: &str, change: &str, sessions: &str, expected: Answer| {
        let what = format!("open {open}, change {change}, {sessions}");
        checks.same(&what, analyse(&text(open, change, sessions), &[0x80, 0x80, 0x00], ENOUGH), expected);
    };
    let zero = "new session.n = 0";
    let up = "(session.n = 0 and new session.n = 1) or (session.n = 1 and new session.n = 2)";
    answer("false", "true", "session of u0: n = 0", refused(9));
    answer("false", "true", "", safe(0, 0));
    answer(zero, "false", "session of u0: n = 0", safe(2, 1));
    answer(zero, "false", "session of u0: n = 0 session of u1: n = 1", refused(9));
    answer(zero, up, "session of u1: n = 2", safe(6, 1));
    answer(zero, "session.n = 1 and new session.n = 2", "session of u1: n = 2", refused(9));
    answer("new session.n = user.n", "false", "session of u1: n = 1", safe(2, 1));
    answer("new session.n = user.n", "false", "session of u0: n = 1", refused(9));
    let bad = text("false", "true", "session of u0: n = 0");
    checks.same("9 before 10 and 11", analyse(&bad, &[], 0), refused(9));
}

/// Reading 12: what the counts are of.
fn counts(checks: &mut Checks) {
    // Both users have the same value; items are made as 3 and go up by one from 0 and 3, not on to 3 from below.
    let bytes = file(
        "session attribute n: one of 2 item attribute n: one of 5 user u0 user u1
        session of u0: n = 0 item: n = 0 item: n = 4 permission p permission q
        open session: new session.n = 0 change session: false make item: new item.n = 3
        change item: (item.n = 0 and new item.n = 1) or (item.n = 3 and new item.n = 4)
        allow p: true allow q: item.n = 2",
    );
    checks.same("any item", analyse(&bytes, &[0x80, 0x80, 0x10], ENOUGH), safe(2, 4));
    checks.same("item 0", analyse(&bytes, &[0x80, 0x00, 0x10], ENOUGH), safe(2, 2));
    checks.same("item 1", analyse(&bytes, &[0x80, 0x01, 0x10], ENOUGH), safe(2, 1));
    checks.same("the counts do not stop at a leak", analyse(&bytes, &[0x00, 0x80, 0x00], ENOUGH), leak(2, 4));
    checks.same("item 0 leaks", analyse(&bytes, &[0x41, 0x00, 0x00], ENOUGH), leak(2, 2));
}

/// A sister's values, and an item value that has been replaced.
fn slips(checks: &mut Checks) {
    // A session opened as 0 goes to 1 or to 2 and stays; the second starting session is already 1.
    let bytes = file(
        "session attribute n: one of 3 item attribute n: one of 2 user u
        session of u: n = 0 session of u: n = 1 item: n = 0 permission p permission q
        open session: new session.n = 0
        change session: session.n = 0 and not new session.n = 0
        make item: false change item: session.n = 2 and new item.n = 1
        allow p: session.n = 2 allow q: session.n = 2 and item.n = 0",
    );
    checks.same("session 0 itself", analyse(&bytes, &[0x00, 0x00, 0x00], ENOUGH), leak(3, 2));
    checks.same("not what its sister could", analyse(&bytes, &[0x01, 0x00, 0x00], ENOUGH), safe(3, 2));
    checks.same("the user's sessions", analyse(&bytes, &[0x40, 0x00, 0x00], ENOUGH), leak(3, 2));
    checks.same("the value before it is replaced", analyse(&bytes, &[0x00, 0x00, 0x10], ENOUGH), leak(3, 2));
    // Helpers of another user change the item; the asker never could.
    let helped = file(
        "user attribute n: one of 2 session attribute n: one of 2 item attribute n: one of 2
        user u0: n = 0 user u1: n = 1 item: n = 0 permission p
        open session: new session.n = user.n change session: false make item: false
        change item: session.n = 1 and new item.n = 1
        allow p: session.n = 0 and item.n = 1",
    );
    checks.same("helped by another user", analyse(&helped, &[0x40, 0x00, 0x00], ENOUGH), leak(2, 2));
    checks.same("the helper itself", analyse(&helped, &[0x41, 0x00, 0x00], ENOUGH), safe(2, 2));
}
