//! Replaying a leak in lent cells.

use super::monitor::{parts, session_there, start, step, Next};
use super::question::{question, Question};
use super::read::read;
use super::rules::Rules;

/// Whether a row that was carried out is a grant that fits the question.
fn row_fits(rules: &Rules, asked: &Question, sessions: &[u64], next: &Next, row: u64) -> bool {
    let parts = parts(row);
    match session_there(rules, sessions, next, parts.actor) {
        Some(actor) => parts.kind == 6 && asked.fits(parts.actor, actor.user, parts.target, parts.value),
        None => false,
    }
}

fn replay_rows(
    rules: &Rules,
    asked: &Question,
    rows: &[u64],
    sessions: &mut [u64],
    items: &mut [u64],
) -> Result<(), u32> {
    let mut next = start(rules, sessions, items)?;
    for row in rows {
        step(rules, sessions, items, &mut next, *row)?;
    }
    match rows.last() {
        Some(last) if row_fits(rules, asked, sessions, &next, *last) => Ok(()),
        _ => Err(17),
    }
}

fn replay_file(
    file: &[u8],
    bytes: &[u8],
    rows: &[u64],
    sessions: &mut [u64],
    items: &mut [u64],
) -> Result<(), u32> {
    let rules = read(file)?;
    let asked = question(&rules, bytes)?;
    replay_rows(&rules, &asked, rows, sessions, items)
}

/// 0 if the rows replay as a leak, else the number: the file's (1 to 8, 18, 19), 10 of the question, 15 of the start,
/// the first failing row's own, or 17.
pub fn replay(file: &[u8], question: &[u8], rows: &[u64], sessions: &mut [u64], items: &mut [u64]) -> u32 {
    replay_file(file, question, rows, sessions, items).err().unwrap_or(0)
}
