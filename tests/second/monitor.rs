//! The monitor: steps as rows of 64 bits on lent cells.

use super::formula::{may_access, may_change_item, may_change_session, may_make, may_open};
use super::rules::{Owned, Rules, ITEM, SESSION};

/// How many numbers of each sort can be given; cells from here on are never used.
pub const NUMBERS: u64 = 1_048_576;

/// What a cell that codes something has added to its user and value.
const CODED: u64 = 65536;

/// The two next numbers.
#[derive(Clone, Copy, Debug, PartialEq, Eq)]
pub struct Next {
    pub session: u64,
    pub item: u64,
}

/// The parts of a row.
#[derive(Clone, Copy, Debug, PartialEq, Eq)]
pub struct Parts {
    pub kind: u64,
    pub actor: u64,
    pub target: u64,
    pub value: u64,
    pub spare: u64,
}

/// Takes a row apart.
pub fn parts(row: u64) -> Parts {
    Parts {
        kind: row >> 60,
        actor: (row >> 40) % (1 << 20),
        target: (row >> 20) % (1 << 20),
        value: (row >> 8) % (1 << 12),
        spare: row % (1 << 8),
    }
}

/// The row of a step whose four numbers fit their fields.
pub fn row_of(kind: u64, actor: u64, target: u64, value: u64) -> u64 {
    kind << 60 | actor << 40 | target << 20 | value << 8
}

fn session_cell(user: u32, value: u32) -> u64 {
    CODED + 256 * u64::from(user) + u64::from(value)
}

fn item_cell(value: u32) -> u64 {
    CODED + u64::from(value)
}

/// The content of a number's cell, if the number was given and has a cell.
fn cell(cells: &[u64], next: u64, number: u64) -> Option<u64> {
    if number >= next || number >= NUMBERS || number >= cells.len() as u64 {
        return None;
    }
    Some(cells[number as usize])
}

/// The open session of a number, if it is there.
pub fn session_there(rules: &Rules, sessions: &[u64], next: &Next, number: u64) -> Option<Owned> {
    let code = cell(sessions, next.session, number)?.checked_sub(CODED)?;
    let (user, value) = (code / 256, code % 256);
    if user >= rules.users.len() as u64 || !rules.has_value(SESSION, value) {
        return None;
    }
    Some(Owned { user: user as u32, value: value as u32 })
}

/// The value of the item of a number, if it is there.
pub fn item_there(rules: &Rules, items: &[u64], next: &Next, number: u64) -> Option<u32> {
    let value = cell(items, next.item, number)?.checked_sub(CODED)?;
    if !rules.has_value(ITEM, value) {
        return None;
    }
    Some(value as u32)
}

/// Starts the monitor: writes the starting cells, or gives 15 and writes nothing.
pub fn start(rules: &Rules, sessions: &mut [u64], items: &mut [u64]) -> Result<Next, u32> {
    if rules.sessions.len() > sessions.len() || rules.items.len() > items.len() {
        return Err(15);
    }
    for (place, session) in rules.sessions.iter().enumerate() {
        sessions[place] = session_cell(session.user, session.value);
    }
    for (place, value) in rules.items.iter().enumerate() {
        items[place] = item_cell(*value);
    }
    Ok(Next { session: rules.sessions.len() as u64, item: rules.items.len() as u64 })
}

/// Whether the target of opening or making is the next number; not tested once all numbers are given.
fn is_next(target: u64, next: u64) -> bool {
    next >= NUMBERS || target == next
}

/// Whether the next number can be given and has a cell.
fn has_cell(cells: &[u64], next: u64) -> bool {
    next < NUMBERS && next < cells.len() as u64
}

/// The number of a fault, unless all is well.
fn demand(well: bool, number: u32) -> Result<(), u32> {
    if well {
        Ok(())
    } else {
        Err(number)
    }
}

fn open(rules: &Rules, sessions: &mut [u64], next: &mut Next, step: &Parts) -> Result<(), u32> {
    demand(step.actor < rules.users.len() as u64, 13)?;
    demand(is_next(step.target, next.session), 13)?;
    demand(rules.has_value(SESSION, step.value), 14)?;
    demand(has_cell(sessions, next.session), 15)?;
    let (user, value) = (step.actor as u32, step.value as u32);
    demand(may_open(rules, user, value), 16)?;
    sessions[next.session as usize] = session_cell(user, value);
    next.session += 1;
    Ok(())
}

/// The open session that is the target of closing or changing, if it belongs to the acting user.
fn own_session(rules: &Rules, sessions: &[u64], next: &Next, step: &Parts) -> Result<Owned, u32> {
    let session = session_there(rules, sessions, next, step.target).ok_or(13u32)?;
    demand(u64::from(session.user) == step.actor, 13)?;
    Ok(session)
}

fn close(rules: &Rules, sessions: &mut [u64], next: &Next, step: &Parts) -> Result<(), u32> {
    own_session(rules, sessions, next, step)?;
    sessions[step.target as usize] = 0;
    Ok(())
}

fn change_session(rules: &Rules, sessions: &mut [u64], next: &Next, step: &Parts) -> Result<(), u32> {
    let session = own_session(rules, sessions, next, step)?;
    demand(rules.has_value(SESSION, step.value), 14)?;
    let new = step.value as u32;
    demand(may_change_session(rules, session.user, session.value, new), 16)?;
    sessions[step.target as usize] = session_cell(session.user, new);
    Ok(())
}

fn make(rules: &Rules, sessions: &[u64], items: &mut [u64], next: &mut Next, step: &Parts) -> Result<(), u32> {
    let actor = session_there(rules, sessions, next, step.actor).ok_or(13u32)?;
    demand(is_next(step.target, next.item), 13)?;
    demand(rules.has_value(ITEM, step.value), 14)?;
    demand(has_cell(items, next.item), 15)?;
    let new = step.value as u32;
    demand(may_make(rules, actor.value, new), 16)?;
    items[next.item as usize] = item_cell(new);
    next.item += 1;
    Ok(())
}

fn change_item(rules: &Rules, sessions: &[u64], items: &mut [u64], next: &Next, step: &Parts) -> Result<(), u32> {
    let actor = session_there(rules, sessions, next, step.actor).ok_or(13u32)?;
    let old = item_there(rules, items, next, step.target).ok_or(13u32)?;
    demand(rules.has_value(ITEM, step.value), 14)?;
    let new = step.value as u32;
    demand(may_change_item(rules, actor.value, old, new), 16)?;
    items[step.target as usize] = item_cell(new);
    Ok(())
}

fn access(rules: &Rules, sessions: &[u64], items: &[u64], next: &Next, step: &Parts) -> Result<(), u32> {
    let actor = session_there(rules, sessions, next, step.actor).ok_or(13u32)?;
    let item = item_there(rules, items, next, step.target).ok_or(13u32)?;
    demand(step.value < u64::from(rules.permissions), 13)?;
    demand(may_access(rules, step.value as u32, actor.value, item), 16)
}

/// Carries out one row, or gives the number of its refusal and changes nothing.
pub fn step(
    rules: &Rules,
    sessions: &mut [u64],
    items: &mut [u64],
    next: &mut Next,
    row: u64,
) -> Result<(), u32> {
    let step = parts(row);
    demand((1..=6).contains(&step.kind) && step.spare == 0, 12)?;
    demand(step.kind != 2 || step.value == 0, 12)?;
    match step.kind {
        1 => open(rules, sessions, next, &step),
        2 => close(rules, sessions, next, &step),
        3 => change_session(rules, sessions, next, &step),
        4 => make(rules, sessions, items, next, &step),
        5 => change_item(rules, sessions, items, next, &step),
        _ => access(rules, sessions, items, next, &step),
    }
}
