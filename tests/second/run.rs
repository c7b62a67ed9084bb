//! Runs: the state as two lists without limits, and steps of four whole numbers.

use super::formula::{may_access, may_change_item, may_change_session, may_make, may_open};
use super::rules::{Owned, Rules, ITEM, SESSION};

/// A step: kind, actor, target, value.
#[derive(Clone, Copy, Debug, PartialEq, Eq, PartialOrd, Ord)]
pub struct Step {
    pub kind: u64,
    pub actor: u64,
    pub target: u64,
    pub value: u64,
}

/// The state of a run. A session is closed (`None`) or open with a user and value; an item is a value.
#[derive(Clone, Debug, PartialEq, Eq)]
pub struct State {
    pub sessions: Vec<Option<Owned>>,
    pub items: Vec<u32>,
}

/// The state in which a run begins.
pub fn begin(rules: &Rules) -> State {
    State { sessions: rules.sessions.iter().map(|session| Some(*session)).collect(), items: rules.items.clone() }
}

/// The open session at a place.
pub fn open_session(state: &State, number: u64) -> Option<Owned> {
    if number >= state.sessions.len() as u64 {
        return None;
    }
    state.sessions[number as usize]
}

/// The item at a place.
pub fn item(state: &State, number: u64) -> Option<u32> {
    if number >= state.items.len() as u64 {
        return None;
    }
    Some(state.items[number as usize])
}

/// The open session that is the target of closing or changing, if it is one of the acting user.
fn own_session(state: &State, step: &Step) -> Option<Owned> {
    open_session(state, step.target).filter(|session| u64::from(session.user) == step.actor)
}

fn open(rules: &Rules, state: &mut State, step: &Step) -> Option<()> {
    if step.actor >= rules.users.len() as u64 || step.target != state.sessions.len() as u64 {
        return None;
    }
    if !rules.has_value(SESSION, step.value) {
        return None;
    }
    let (user, value) = (step.actor as u32, step.value as u32);
    may_open(rules, user, value).then_some(())?;
    state.sessions.push(Some(Owned { user, value }));
    Some(())
}

fn close(state: &mut State, step: &Step) -> Option<()> {
    own_session(state, step).filter(|_| step.value == 0)?;
    state.sessions[step.target as usize] = None;
    Some(())
}

fn change_session(rules: &Rules, state: &mut State, step: &Step) -> Option<()> {
    let session = own_session(state, step).filter(|_| rules.has_value(SESSION, step.value))?;
    let value = step.value as u32;
    may_change_session(rules, session.user, session.value, value).then_some(())?;
    state.sessions[step.target as usize] = Some(Owned { user: session.user, value });
    Some(())
}

fn make(rules: &Rules, state: &mut State, step: &Step) -> Option<()> {
    let actor = open_session(state, step.actor)?;
    if step.target != state.items.len() as u64 || !rules.has_value(ITEM, step.value) {
        return None;
    }
    may_make(rules, actor.value, step.value as u32).then_some(())?;
    state.items.push(step.value as u32);
    Some(())
}

fn change_item(rules: &Rules, state: &mut State, step: &Step) -> Option<()> {
    let actor = open_session(state, step.actor)?;
    let old = item(state, step.target).filter(|_| rules.has_value(ITEM, step.value))?;
    may_change_item(rules, actor.value, old, step.value as u32).then_some(())?;
    state.items[step.target as usize] = step.value as u32;
    Some(())
}

fn access(rules: &Rules, state: &State, step: &Step) -> Option<()> {
    let actor = open_session(state, step.actor)?;
    let item = item(state, step.target).filter(|_| step.value < u64::from(rules.permissions))?;
    may_access(rules, step.value as u32, actor.value, item).then_some(())
}

/// Carries out a step and says so, or refuses it and changes nothing.
pub fn carry_out(rules: &Rules, state: &mut State, step: &Step) -> bool {
    let done = match step.kind {
        1 => open(rules, state, step),
        2 => close(state, step),
        3 => change_session(rules, state, step),
        4 => make(rules, state, step),
        5 => change_item(rules, state, step),
        6 => access(rules, state, step),
        _ => None,
    };
    done.is_some()
}

/// The state after a list of steps, and which of them were carried out.
pub fn run(rules: &Rules, steps: &[Step]) -> (State, Vec<bool>) {
    let mut state = begin(rules);
    let mut carried_out = Vec::new();
    for step in steps {
        carried_out.push(carry_out(rules, &mut state, step));
    }
    (state, carried_out)
}
