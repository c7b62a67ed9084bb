//! Readable text: the examples, and texts that are bad in one line.

use super::{file, Checks, COUNTER};
use crate::second::analyse::{analyse, Verdict};
use crate::second::read::read;
use crate::second::rules::Node;
use crate::second::text::{assemble, list};

const COUNTER_TEXT: &str = include_str!("../../../examples/counter.rules.txt");
const DAC_TEXT: &str = include_str!("../../../examples/dac.rules.txt");
const MAC_TEXT: &str = include_str!("../../../examples/mac.rules.txt");
const RBAC_TEXT: &str = include_str!("../../../examples/rbac.rules.txt");

pub fn all(checks: &mut Checks) {
    checks.same("the counter text", assemble(COUNTER_TEXT), Ok(COUNTER.to_vec()));
    for text in [COUNTER_TEXT, DAC_TEXT, MAC_TEXT, RBAC_TEXT] {
        let bytes = file(text);
        checks.same("an example listed and assembled", assemble(&list(&bytes).unwrap()), Ok(bytes));
    }
    checks.same("a listing of a bad file", list(&[]), Err(1));
    examples(checks);
    nodes(checks);
    bad(checks);
}

/// A verdict with both counts; true for a leak.
fn verdict(file: &[u8], question: [u8; 3]) -> (bool, u64, u64) {
    let answer = analyse(file, &question, 8192);
    (answer.verdict == Verdict::Leak, answer.pairs, answer.values)
}

/// The examples say what the sources say.
fn examples(checks: &mut Checks) {
    // 002, example 3.1: u1 may read and write o1 and o2, u2 may read and write o1 only. Pairs: 4 sets of roles for u1
    // and 2 for u2.
    let rbac = file(RBAC_TEXT);
    for (user, object, permission, granted) in [
        (0, 0, 0, true),
        (0, 0, 1, true),
        (0, 1, 0, true),
        (0, 1, 1, true),
        (1, 0, 0, true),
        (1, 0, 1, true),
        (1, 1, 0, false),
        (1, 1, 1, false),
    ] {
        checks.same("example 3.1 of 002", verdict(&rbac, [0x40 + user, object, permission * 16]), (granted, 6, 1));
    }
    // 000, Cfg-01: nobody but its user carries an id; the owner u1 can let anybody read, with any of 8 sets r and w.
    let dac = file(DAC_TEXT);
    checks.same("the owner can let u2 read", verdict(&dac, [0x41, 0x00, 0x00]), (true, 3, 64));
    checks.same("a named session of u3 writes item 0", verdict(&dac, [0x01, 0x00, 0x10]), (true, 3, 64));
    // Three ids, each with 8 sets r and 8 sets w.
    checks.same("any item", verdict(&dac, [0x80, 0x80, 0x00]), (true, 3, 192));
    // Pairs: 4 levels and 4 sets for alice, 2 and 1 for bob, 3 and 2 for carol.
    let mac = file(MAC_TEXT);
    checks.same("bob reads no secret item", verdict(&mac, [0x41, 0x00, 0x00]), (false, 24, 1));
    checks.same("bob writes one blindly", verdict(&mac, [0x41, 0x00, 0x10]), (true, 24, 1));
    checks.same("carol reads it", verdict(&mac, [0x42, 0x00, 0x00]), (true, 24, 1));
    checks.same("carol reads no nuclear item", verdict(&mac, [0x42, 0x02, 0x00]), (false, 24, 1));
    checks.same("alice's secret session writes no low item", verdict(&mac, [0x00, 0x01, 0x10]), (false, 24, 1));
    checks.same("alice reads the nuclear item", verdict(&mac, [0x40, 0x02, 0x00]), (true, 24, 1));
}

/// Which nodes an expression gives.
fn nodes(checks: &mut Checks) {
    let formula = |text: &str| {
        let file = file(&format!(
            "session attribute n: one of {{a, b, c}} session attribute s: set of {{a, b, c}} user u permission p
            open session: true change session: true make item: true change item: true allow p: {text}"
        ));
        read(&file).unwrap().formulas[4].clone()
    };
    let node = |operator, a, b| Node { operator, a, b };
    // The session as it is has holder 1, so its attributes are 32 and 33; constants are 160 and above.
    checks.same("a constant on the right", formula("session.n = c"), vec![node(5, 32, 162)]);
    checks.same("a constant on the left", formula("b in session.s"), vec![node(8, 161, 33)]);
    checks.same("a number", formula("15 < session.n"), vec![node(6, 175, 32)]);
    let joined = vec![node(1, 0, 0), node(0, 0, 0), node(1, 0, 0), node(2, 2, 0), node(3, 1, 3), node(4, 0, 4)];
    checks.same("and binds closer than or", formula("true or false and not true"), joined);
    let bracketed = vec![node(1, 0, 0), node(0, 0, 0), node(4, 0, 1), node(2, 2, 0)];
    checks.same("parentheses", formula("not (true or false)"), bracketed);
    let shared = vec![node(10, 33, 33), node(3, 0, 0)];
    checks.same("a named part", formula("let x = session.s proper subset session.s x and x"), shared);
    let repeated = vec![node(1, 0, 0), node(0, 0, 0), node(3, 0, 0)];
    checks.same("an earlier part as the answer", formula("let x = true let y = false x"), repeated);
    checks.same("the last part as the answer", formula("let x = true x"), vec![node(1, 0, 0)]);
}

/// Bad texts: the counter text with one line replaced gives that line; a text that lacks something gives the last.
fn bad(checks: &mut Checks) {
    let lines: Vec<&str> = COUNTER_TEXT.lines().collect();
    let swaps = [
        ("user attribute rights: set of {counting}", "user attribute rights: set of 9"),
        ("user attribute rights: set of {counting}", "user attribute rights: set of {one}"),
        ("user attribute rights: set of {counting}", "user attribute user: set of 1"),
        ("item attribute count: one of 2", "item attribute count: one of 17"),
        ("item attribute count: one of 2", "item attribute count: one of 99999999999"),
        ("user clerk: rights = {counting}", "user clerk: rights = {counting, other}"),
        ("user clerk: rights = {counting}", "user clerk: rights = counting"),
        ("user clerk: rights = {counting}", "user clerk"),
        ("user clerk: rights = {counting}", "user clerk: left = {}"),
        ("user clerk: rights = {counting}", "session of nobody: rights = {}"),
        ("user guest: rights = {}", "user clerk: rights = {}"),
        ("permission see", "permission see permission see"),
        ("permission see", "permission ?"),
        ("  new item.count = 0", "  new item.count = 16"),
        ("  new item.count = 0", "  item.count = 0"),
        ("  new item.count = 0", "  new item.size = 0"),
        ("  new item.count = 0", "  new item.count in 0"),
        ("  new item.count = 0", "  new item.count subset new item.count"),
        ("  new item.count = 0", "  new item.count = zero"),
        ("  new item.count = 0", "  (new item.count = 0"),
        ("  new item.count = 0", "  something"),
        ("  new item.count = 0", "  let a = true let a = true a"),
        ("change item:", "make item:"),
        ("allow see:", "allow hear:"),
    ];
    for (old, new) in swaps {
        let place = lines.iter().position(|line| *line == old).unwrap();
        let mut changed = lines.clone();
        changed[place] = new;
        let found = assemble(&changed.join("\n")).map_err(|(line, _)| line);
        // What a line lacks may show only at the first word after it.
        let after = (place + 1..lines.len()).find(|next| !lines[*next].is_empty()).unwrap_or(place) + 1;
        checks.holds(&format!("{new}: {found:?}"), found == Err(place + 1) || found == Err(after));
    }
    // Without the blank line before it, the heading of the last formula and the formula.
    let last = lines.len() - 3;
    let cut = assemble(&lines[..last].join("\n")).map_err(|(line, _)| line);
    checks.same("no formula for a permission", cut, Err(last));
    let deep = format!("user u permission p open session: {}", "(".repeat(100_000));
    checks.same("parts inside parts", assemble(&deep).map_err(|(line, _)| line), Err(1));
    checks.same("an empty text", assemble("").map_err(|(line, _)| line), Err(1));
}
