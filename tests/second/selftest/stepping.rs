//! Steps on lent cells: P8 and the settled readings 14 to 19.

use super::{file, Checks, COUNTER};
use crate::second::monitor::{row_of, start, step, Next, NUMBERS};
use crate::second::read::read;
use crate::second::rules::Rules;

/// Two users; a session is one of three values, an item one of three; everything is allowed but to open with 2 as u1,
/// to make 2, to change to the value that stands, and the second permission.
const LOOSE: &str = "
    user attribute n: one of 2 session attribute n: one of 3 item attribute n: one of 3
    user u0: n = 0 user u1: n = 1 session of u0: n = 1 session of u1: n = 0 item: n = 2
    permission p permission q
    open session: not (user.n = 1 and new session.n = 2)
    change session: not session.n = new session.n
    make item: new item.n < 2
    change item: not item.n = new item.n
    allow p: true
    allow q: false";

/// Lent cells and next numbers.
#[derive(Clone, PartialEq, Debug)]
struct Lent {
    sessions: Vec<u64>,
    items: Vec<u64>,
    next: Next,
}

/// The cell of an open session and of an item, as CELLS.md codes them.
const fn open(user: u64, value: u64) -> u64 {
    65536 + 256 * user + value
}

const fn item(value: u64) -> u64 {
    65536 + value
}

fn lent() -> Lent {
    let sessions = vec![open(0, 1), open(1, 0), 7, 7, 7];
    Lent { sessions, items: vec![item(2), 7, 7], next: Next { session: 2, item: 1 } }
}

/// Takes a step; the number of its refusal, after which nothing has changed, or 0.
fn take(checks: &mut Checks, rules: &Rules, lent: &mut Lent, row: u64) -> u32 {
    let before = lent.clone();
    match step(rules, &mut lent.sessions, &mut lent.items, &mut lent.next, row) {
        Ok(()) => 0,
        Err(number) => {
            checks.same("a refused step changes nothing", lent.clone(), before);
            number
        }
    }
}

/// The number of one step from a lent state.
fn number(checks: &mut Checks, rules: &Rules, from: &Lent, parts: [u64; 4]) -> u32 {
    take(checks, rules, &mut from.clone(), row_of(parts[0], parts[1], parts[2], parts[3]))
}

pub fn all(checks: &mut Checks) {
    let rules = read(&file(LOOSE)).unwrap();
    starting(checks, &rules);
    refusals(checks, &rules);
    carried_out(checks, &rules);
    next_numbers(checks, &rules);
    odd_cells(checks, &rules);
    let counter = read(&COUNTER).unwrap();
    let empty = Lent { sessions: vec![0; 2], items: vec![0; 2], next: Next { session: 0, item: 0 } };
    let found = number(checks, &counter, &empty, [1, 1, 0, 1]);
    checks.same("user 1 of the counter file opens with {0}", found, 16);
}

fn starting(checks: &mut Checks, rules: &Rules) {
    let (mut sessions, mut items) = ([7; 5], [7; 3]);
    let next = start(rules, &mut sessions, &mut items);
    checks.same("start", next, Ok(Next { session: 2, item: 1 }));
    checks.same("starting sessions", sessions.to_vec(), lent().sessions);
    checks.same("starting items", items.to_vec(), lent().items);
    for (session_cells, item_cells) in [(1, 3), (5, 0), (0, 0)] {
        let (mut sessions, mut items) = (vec![7; session_cells], vec![7; item_cells]);
        checks.same("too few cells to start", start(rules, &mut sessions, &mut items), Err(15));
        checks.same("then nothing is written", (sessions, items), (vec![7; session_cells], vec![7; item_cells]));
    }
    checks.same("just enough cells to start", start(rules, &mut [7; 2], &mut [7; 1]).is_ok(), true);
}

/// Readings 14 and 16: which number comes first.
fn refusals(checks: &mut Checks, rules: &Rules) {
    let full = Lent { sessions: lent().sessions[..2].to_vec(), items: lent().items[..1].to_vec(), next: lent().next };
    let cases: [(&str, &Lent, [u64; 4], u32); 22] = [
        ("kind 0", &lent(), [0, 0, 0, 0], 12),
        ("kind 7", &lent(), [7, 9, 9, 9], 12),
        ("close with a value", &lent(), [2, 9, 9, 1], 12),
        ("open for user 2", &lent(), [1, 2, 2, 3], 13),
        ("open with another number", &full, [1, 0, 3, 3], 13),
        ("open with an unknown value", &full, [1, 1, 2, 3], 14),
        ("open with a value of 12 bits", &full, [1, 1, 2, 4095], 14),
        ("open without a cell, rule false", &full, [1, 1, 2, 2], 15),
        ("open against the rule", &lent(), [1, 1, 2, 2], 16),
        ("close a session of another", &lent(), [2, 0, 1, 0], 13),
        ("close an unknown session", &lent(), [2, 0, 2, 0], 13),
        ("change a session of another", &lent(), [3, 0, 1, 3], 13),
        ("change a session to an unknown value", &lent(), [3, 0, 0, 3], 14),
        ("change a session against the rule", &lent(), [3, 0, 0, 1], 16),
        ("make by an unknown session", &lent(), [4, 2, 1, 0], 13),
        ("make with another number", &full, [4, 0, 0, 0], 13),
        ("make without a cell, unknown value", &full, [4, 0, 1, 3], 14),
        ("make without a cell, rule false", &full, [4, 0, 1, 2], 15),
        ("change an unknown item", &lent(), [5, 0, 1, 3], 13),
        ("change an item against the rule", &lent(), [5, 0, 0, 2], 16),
        ("access with permission 2 of 2", &lent(), [6, 0, 0, 2], 13),
        ("access against the rule", &lent(), [6, 0, 0, 1], 16),
    ];
    for (what, from, parts, expected) in cases {
        let found = number(checks, rules, from, parts);
        checks.same(what, found, expected);
    }
    for bit in 0..8 {
        let found = take(checks, rules, &mut lent(), row_of(6, 0, 0, 0) | 1 << bit);
        checks.same("a spare bit of a row", found, 12);
    }
    let unknown = number(checks, rules, &lent(), [2, 2, 0, 0]);
    checks.same("close by a number that is no user", unknown, 13);
    let on = number(checks, rules, &full, [6, 0, 0, 0]);
    checks.same("without a cell for the next number, other steps go on", on, 0);
}

/// A whole run: each step writes its target's cell and nothing else.
fn carried_out(checks: &mut Checks, rules: &Rules) {
    let mut state = lent();
    let steps = [[1, 1, 2, 1], [3, 1, 1, 2], [2, 0, 0, 0], [4, 1, 1, 0], [5, 2, 1, 2], [6, 2, 0, 0]];
    for [kind, actor, target, value] in steps {
        let found = take(checks, rules, &mut state, row_of(kind, actor, target, value));
        checks.same("a step is carried out", found, 0);
    }
    let after = Lent {
        sessions: vec![0, open(1, 2), open(1, 1), 7, 7],
        items: vec![item(2), item(2), 7],
        next: Next { session: 3, item: 2 },
    };
    checks.same("the state after", state.clone(), after);
    for step in [[2, 0, 0, 0], [3, 0, 0, 1], [4, 0, 2, 0], [6, 0, 0, 0]] {
        let found = number(checks, rules, &state, step);
        checks.same("a closed session", found, 13);
    }
    let again = number(checks, rules, &state, [1, 0, 0, 0]);
    checks.same("a closed session's number is not given again", again, 13);
}

/// Reading 15: the last number, and cells beyond it.
fn last_number(checks: &mut Checks, rules: &Rules) {
    let last = NUMBERS - 1;
    let mut sessions = [lent().sessions, vec![7; NUMBERS as usize]].concat();
    let mut items = lent().items;
    let mut next = Next { session: last, item: 1 };
    let given = step(rules, &mut sessions, &mut items, &mut next, row_of(1, 0, last, 2));
    checks.same("number 1,048,575 can be given", (given, next.session), (Ok(()), NUMBERS));
    checks.same("its cell", sessions[last as usize], open(0, 2));
    let beyond = step(rules, &mut sessions, &mut items, &mut next, row_of(1, 0, 0, 2));
    checks.same("no number after it", (beyond, next.session), (Err(15), NUMBERS));
    checks.same("the cell after it", sessions[NUMBERS as usize], 7);
    let closed = step(rules, &mut sessions, &mut items, &mut next, row_of(2, 0, last, 0));
    checks.same("the last session is closed", (closed, sessions[last as usize]), (Ok(()), 0));
}

/// Readings 15, 16 and 18: great next numbers.
fn next_numbers(checks: &mut Checks, rules: &Rules) {
    last_number(checks, rules);
    for great in [NUMBERS, NUMBERS + 1, u64::from(u32::MAX)] {
        let from = Lent { next: Next { session: great, item: great }, ..lent() };
        for (parts, expected) in [([1, 2, 5, 3], 13), ([1, 0, 5, 3], 14), ([1, 1, 5, 2], 15), ([1, 0, 0, 0], 15)] {
            let found = number(checks, rules, &from, parts);
            checks.same("all session numbers given", found, expected);
        }
        for (parts, expected) in [([4, 9, 5, 3], 13), ([4, 0, 5, 3], 14), ([4, 0, 5, 2], 15), ([4, 0, 0, 0], 15)] {
            let found = number(checks, rules, &from, parts);
            checks.same("all item numbers given", found, expected);
        }
        let mut on = from;
        let found = take(checks, rules, &mut on, row_of(3, 0, 0, 2));
        checks.same("other steps leave the next number", (found, on.next.session), (0, great));
    }
    let gap = Lent { next: Next { session: 9, item: 9 }, ..lent() };
    for (parts, expected) in [([1, 0, 5, 0], 13), ([1, 0, 9, 0], 15), ([4, 0, 9, 0], 15), ([6, 0, 0, 0], 0)] {
        let found = number(checks, rules, &gap, parts);
        checks.same("a next number beyond the cells", found, expected);
    }
}

/// Reading 17: cells that no run left.
fn odd_cells(checks: &mut Checks, rules: &Rules) {
    for odd in [0, 7, open(2, 0), open(0, 3), open(0, 1) + (1 << 17), open(0, 1) - 65536, u64::MAX] {
        let mut state = lent();
        state.sessions[1] = odd;
        for parts in [[2, 0, 1, 0], [2, 1, 1, 0], [3, 0, 1, 0], [4, 1, 1, 0], [6, 1, 0, 0]] {
            let found = number(checks, rules, &state, parts);
            checks.same("an odd session cell", found, 13);
        }
    }
    for odd in [0, 7, item(3), item(256), item(2) + (1 << 17), 2, u64::MAX] {
        let mut state = lent();
        state.items[0] = odd;
        for parts in [[5, 0, 0, 0], [6, 0, 0, 0]] {
            let found = number(checks, rules, &state, parts);
            checks.same("an odd item cell", found, 13);
        }
    }
    let early = Lent { next: Next { session: 0, item: 0 }, ..lent() };
    let found = number(checks, rules, &early, [6, 0, 0, 0]);
    checks.same("a number not below the next one", found, 13);
    let mut over = early.clone();
    let found = take(checks, rules, &mut over, row_of(1, 1, 0, 0));
    checks.same("a cell is overwritten when its number is given", (found, over.sessions[0]), (0, open(1, 0)));
}
