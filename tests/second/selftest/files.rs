//! Reading: the paper's table of numbers and the settled readings 1 to 6.

use super::{bytes_of, file, Checks, COUNTER};
use crate::second::formula::{may_change_session, may_open};
use crate::second::read::read;

/// Fields of a file, each a width and a number.
pub type Fields = Vec<(u32, u32)>;

/// A head: attribute counts of users, sessions and items, users, starting sessions, starting items, permissions, spare.
pub fn head(counts: [u32; 8]) -> Fields {
    let widths = [4, 4, 4, 5, 6, 6, 4, 7];
    (0..8).map(|place| (widths[place], counts[place])).collect()
}

/// An attribute of list 0, with its last bit.
fn attribute(kind: u32, size: u32, last: u32) -> Fields {
    vec![(1, kind), (5, size), (5, 0), (1, last)]
}

/// A formula of these nodes, each operator, a and b.
fn formula(nodes: &[(u32, u32, u32)]) -> Fields {
    let mut fields = vec![(8, nodes.len() as u32)];
    for (operator, a, b) in nodes {
        fields.extend([(4, *operator), (8, *a), (8, *b)]);
    }
    fields
}

/// The formulas of a file with one permission, all true but the one at a place.
pub fn formulas(place: usize, nodes: &[(u32, u32, u32)]) -> Fields {
    (0..5).flat_map(|other| formula(if other == place { nodes } else { &[(1, 0, 0)] })).collect()
}

/// The number that reading gives; 0 if it gives rules.
fn number(bytes: &[u8]) -> u32 {
    read(bytes).err().unwrap_or(0)
}

/// The number that reading these parts of a file gives; 0 if it gives rules.
pub fn number_of(parts: &[Fields]) -> u32 {
    number(&bytes_of(&parts.concat()))
}

pub fn all(checks: &mut Checks) {
    table(checks);
    fields_in_order(checks);
    widths(checks);
    nodes(checks);
    meanings(checks);
}

/// The small examples of the table.
fn table(checks: &mut Checks) {
    checks.same("the counter file", number(&COUNTER), 0);
    checks.same("empty file", number(&[]), 1);
    checks.same("0 users", number_of(&[head([0, 0, 0, 0, 0, 0, 1, 0])]), 2);
    checks.same("bytes follow", number(&[&COUNTER[..], &[0]].concat()), 3);
    checks.same("set of size 9", number_of(&[head([1, 0, 0, 1, 0, 0, 1, 0]), attribute(1, 9, 0)]), 4);
    let sets = [head([0, 2, 0, 1, 0, 0, 1, 0]), attribute(1, 5, 0), attribute(1, 5, 0)];
    checks.same("two session sets of size 5", number_of(&sets), 5);
    let code = [head([1, 0, 0, 1, 0, 0, 1, 0]), attribute(0, 3, 0), vec![(2, 3)]];
    checks.same("atomic size 3, code 3", number_of(&code), 6);
    checks.same("2 users, user 2", number_of(&[head([0, 0, 0, 2, 1, 0, 1, 0]), vec![(4, 2)]]), 7);
    let none = head([0, 0, 0, 1, 0, 0, 1, 0]);
    checks.same("node 0 is not node 0", number_of(&[none, formulas(0, &[(2, 0, 0)])]), 8);
    for length in 0..COUNTER.len() {
        checks.same("the counter file cut off", number(&COUNTER[..length]), 1);
    }
    let mut filled = COUNTER;
    filled[32] |= 1;
    checks.same("a filling bit set", number(&filled), 3);
}

/// Readings 1, 2 and 5: what comes first.
fn fields_in_order(checks: &mut Checks) {
    let cut = [0x21, 0x00, 0x80, 0x00, 0x80, 0x0c, 0x09, 0x80, 0x08, 0x0c];
    checks.same("a bad code before a cut-off attribute", number(&cut), 6);
    checks.same("a bad count before the end", number(&[0x90]), 2);
    for (place, count) in [(0, 9), (1, 9), (2, 9), (3, 0), (3, 17), (4, 33), (5, 33), (6, 0), (6, 9)] {
        let mut counts = [0, 0, 0, 1, 0, 0, 1, 1];
        counts[place] = count;
        checks.same("a count outside its range, then a spare bit", number_of(&[head(counts)]), 2);
    }
    checks.same("the head's spare", number_of(&[head([0, 0, 0, 1, 0, 0, 1, 1])]), 3);
    checks.same("the head cut off", number(&bytes_of(&head([0, 0, 0, 1, 0, 0, 1, 1]))[..4]), 1);
    let one = head([1, 0, 0, 1, 0, 0, 1, 0]);
    checks.same("size before the last bit", number_of(&[one.clone(), attribute(0, 0, 1)]), 4);
    checks.same("size before the end", number_of(&[one.clone(), vec![(1, 0), (5, 17)]]), 4);
    checks.same("a good size, then the end", number_of(&[one.clone(), vec![(1, 0), (5, 16)]]), 1);
    checks.same("an attribute's last bit", number_of(&[one, attribute(0, 2, 1)]), 3);
    let two = head([0, 2, 1, 1, 0, 0, 1, 0]);
    let wide = [two, attribute(1, 5, 0)].concat();
    checks.same("the last bit before the width", number_of(&[wide.clone(), attribute(1, 5, 1)]), 3);
    checks.same("width before the next class", number_of(&[wide, attribute(1, 5, 0), attribute(0, 0, 1)]), 5);
    let third = [head([0, 3, 0, 1, 0, 0, 1, 0]), attribute(1, 4, 0), attribute(1, 4, 0), vec![(1, 1), (5, 4)]];
    checks.same("end before width", number_of(&third), 1);
    let session = [head([0, 1, 0, 2, 1, 0, 1, 0]), attribute(0, 3, 0)].concat();
    checks.same("user before value", number_of(&[session.clone(), vec![(4, 2), (2, 3)]]), 7);
    checks.same("a session's bad value", number_of(&[session, vec![(4, 1), (2, 3)]]), 6);
}

/// P6, reading 5 and the slip of cutting a set of 8 to 7.
fn widths(checks: &mut Checks) {
    for (kind, size, width) in [(0, 1, 0), (0, 2, 1), (0, 3, 2), (0, 9, 4), (0, 16, 4), (1, 1, 1), (1, 8, 8)] {
        let parts = [head([1, 0, 0, 1, 0, 0, 1, 0]), attribute(kind, size, 0), vec![(width, 0)], formulas(9, &[])];
        checks.same("width of an attribute", number_of(&parts), 0);
    }
    for size in 9..17 {
        checks.same("a set of 9 to 16", number_of(&[head([1, 0, 0, 1, 0, 0, 1, 0]), attribute(1, size, 0)]), 4);
    }
    let full = "user attribute a: set of 8 session attribute a: set of 8 user u: a = {7} permission p
        open session: new session.a subset user.a change session: true make item: true change item: true allow p: true";
    let rules = read(&file(full)).unwrap();
    checks.holds("member 7 of a set of 8", may_open(&rules, 0, 1) && !may_open(&rules, 0, 2));
}

/// Readings 2, 3 and 4: nodes.
fn nodes(checks: &mut Checks) {
    // A user atomic of size 2, a session set of size 2, an item atomic of size 2; constants are 160 and above.
    let attributes = [attribute(0, 2, 0), attribute(1, 2, 0), attribute(0, 2, 0)].concat();
    let front = [head([1, 1, 1, 1, 0, 0, 1, 0]), attributes, vec![(1, 0)]].concat();
    let mut judged = |what: &str, place: usize, nodes: &[(u32, u32, u32)], expected: u32| {
        checks.same(what, number_of(&[front.clone(), formulas(place, nodes)]), expected);
    };
    judged("constant against constant", 0, &[(5, 160, 175)], 0);
    judged("a constant of 16", 0, &[(5, 160, 176)], 8);
    judged("a constant as a set", 0, &[(8, 160, 160)], 8);
    judged("a member of a set", 0, &[(8, 0, 64)], 0);
    judged("an operand of true", 0, &[(1, 1, 0)], 8);
    judged("an operand of false", 0, &[(0, 0, 1)], 8);
    judged("a second operand of not", 0, &[(1, 0, 0), (2, 0, 1)], 8);
    judged("a node after itself", 0, &[(1, 0, 0), (3, 0, 1)], 8);
    judged("an unused bad node", 0, &[(11, 0, 0), (1, 0, 0)], 8);
    judged("an attribute that is not there", 0, &[(5, 1, 160)], 8);
    judged("a set for an atomic", 0, &[(5, 64, 160)], 8);
    judged("an atomic for a set", 0, &[(9, 64, 0)], 8);
    judged("holder 6", 0, &[(5, 192, 160)], 8);
    let allowed = [vec![0, 2], vec![0, 1, 2], vec![1, 4], vec![1, 3, 4], vec![1, 3]];
    for (place, holders) in allowed.iter().enumerate() {
        for holder in 0..5 {
            let node = if [1, 2].contains(&holder) { (9, holder * 32, holder * 32) } else { (5, holder * 32, 160) };
            judged("a holder in a formula", place, &[node], if holders.contains(&holder) { 0 } else { 8 });
        }
    }
    judged("64 nodes", 0, &[(1, 0, 0); 64], 0);
    judged("65 nodes", 0, &[(1, 0, 0); 65], 8);
    checks.same("no nodes, then the end", number_of(&[front.clone(), vec![(8, 0)]]), 8);
    checks.same("65 nodes, then the end", number_of(&[front.clone(), vec![(8, 65)]]), 8);
    let cut = bytes_of(&[front, vec![(8, 1), (4, 15), (8, 0)]].concat());
    checks.same("a bad node cut off", number(&cut), 1);
}

/// P7 and reading 6: what comparisons of sets and numbers say.
fn meanings(checks: &mut Checks) {
    let text = |open: &str, change: &str| {
        file(&format!(
            "user attribute s: set of 1 user attribute n: one of 16
            session attribute s: set of 3 session attribute n: one of 5
            user u: s = {{0}}, n = 3 permission p make item: true change item: true allow p: true
            open session: {open} change session: {change}"
        ))
    };
    let subset = read(&text("new session.s subset user.s", "session.s proper subset new session.s")).unwrap();
    // The session's set stands in bits 5 to 3 of its value, member 0 first.
    checks.same("{0} of 3 is a subset of {0} of 1", may_open(&subset, 0, 0b100000), true);
    checks.same("{2} of 3 is no subset of {0} of 1", may_open(&subset, 0, 0b001000), false);
    checks.same("{} is a proper subset of {0}", may_change_session(&subset, 0, 0, 0b100000), true);
    checks.same("{0} is no proper subset of {0}", may_change_session(&subset, 0, 0b100000, 0b100000), false);
    let proper = read(&text("new session.s proper subset user.s", "user.s proper subset session.s")).unwrap();
    checks.same("{0} of 3 is no proper subset of {0} of 1", may_open(&proper, 0, 0b100000), false);
    checks.same("{} of 3 is a proper subset of {0} of 1", may_open(&proper, 0, 0), true);
    checks.same("{0} of 1 is no proper subset of {0} of 3", may_change_session(&proper, 0, 0b100000, 0), false);
    checks.same("{0} of 1 is a proper subset of {0, 1} of 3", may_change_session(&proper, 0, 0b110000, 0), true);
    let number = read(&text("user.n = new session.n", "user.n in session.s or session.n in new session.s")).unwrap();
    checks.same("3 of 16 is 3 of 5", may_open(&number, 0, 3), true);
    checks.same("3 is no member of a set of 3", may_change_session(&number, 0, 0b111011, 0), false);
    checks.same("2 is a member of a set of 3", may_change_session(&number, 0, 2, 0b001000), true);
}
