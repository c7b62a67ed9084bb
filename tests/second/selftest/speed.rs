//! Wide files: an analysis at widths 8 and 8 with long formulas ends, with the right counts.

use super::{file, Checks};
use crate::second::analyse::{analyse, Verdict};

/// A formula of 64 nodes that says what its first comparison says. Each node uses the one before it twice.
fn long(first: &str) -> String {
    let mut text = format!("let n0 = {first} ");
    for node in 1..63 {
        let word = if node % 2 == 0 { "and" } else { "or" };
        text += &format!("let n{node} = n{0} {word} n{0} ", node - 1);
    }
    text + "n62 and n62"
}

pub fn all(checks: &mut Checks) {
    let users: String = (0..16).map(|user| format!("user u{user} ")).collect();
    let bytes = file(&format!(
        "session attribute s: set of 8 item attribute s: set of 8 {users} permission p
        open session: {} change session: {} make item: {} change item: {} allow p: {}",
        long("0 in new session.s"),
        long("new session.s proper subset session.s"),
        long("0 in new item.s"),
        long("new item.s proper subset new item.s"),
        long("session.s proper subset session.s"),
    ));
    let answer = analyse(&bytes, &[0x80, 0x80, 0x00], 66_049);
    // Each user opens every set that has member 0 and shrinks it to any other; items keep the 128 values they were
    // made with.
    checks.same("wide", (answer.number, answer.verdict, answer.pairs, answer.values), (0, Verdict::Safe, 4096, 128));
}
