//! The verdict by trying every run of a few steps. It knows nothing of closures and serves to check the analyser.

use std::collections::BTreeSet;

use super::question::{question, Question, Which};
use super::read::read;
use super::rules::{Owned, Rules, ITEM, SESSION};
use super::run::{begin, carry_out, open_session, State, Step};

/// What the runs up to some length show. `number` is 0 unless the file or the question is refused; 9 is given when
/// no run of that length opens some starting session anew.
#[derive(Clone, Debug, PartialEq, Eq)]
pub struct Found {
    pub number: u32,
    pub leak: bool,
    pub pairs: BTreeSet<(u32, u32)>,
    pub values: BTreeSet<u32>,
}

/// A state as it is remembered: the starting sessions and items in their places, the later ones sorted and the later
/// closed ones left out, for no formula and no question goes by a later number.
type Key = (Vec<Option<(u32, u32)>>, Vec<u32>);

fn key(rules: &Rules, state: &State) -> Key {
    let plain = |session: &Option<Owned>| session.map(|session| (session.user, session.value));
    let (named, later) = state.sessions.split_at(rules.sessions.len());
    let mut sessions: Vec<Option<(u32, u32)>> = named.iter().map(plain).collect();
    let mut others: Vec<Option<(u32, u32)>> = later.iter().map(plain).filter(Option::is_some).collect();
    others.sort();
    sessions.append(&mut others);
    let (named, later) = state.items.split_at(rules.items.len());
    let mut items = later.to_vec();
    items.sort();
    (sessions, [named, &items].concat())
}

/// The state that a key stands for, up to the later numbers.
fn state_of(key: &Key) -> State {
    let open = |session: &Option<(u32, u32)>| session.map(|(user, value)| Owned { user, value });
    State { sessions: key.0.iter().map(open).collect(), items: key.1.clone() }
}

/// Every step that could be carried out, and some that could not.
fn steps(rules: &Rules, state: &State) -> Vec<Step> {
    let (users, sessions) = (rules.users.len() as u64, state.sessions.len() as u64);
    let items = state.items.len() as u64;
    let mut steps = Vec::new();
    for value in rules.values(SESSION).into_iter().map(u64::from) {
        for actor in 0..users {
            steps.push(Step { kind: 1, actor, target: sessions, value });
            steps.extend((0..sessions).map(|target| Step { kind: 3, actor, target, value }));
        }
    }
    for actor in 0..users {
        steps.extend((0..sessions).map(|target| Step { kind: 2, actor, target, value: 0 }));
    }
    for value in rules.values(ITEM).into_iter().map(u64::from) {
        for actor in 0..sessions {
            steps.push(Step { kind: 4, actor, target: items, value });
            steps.extend((0..items).map(|target| Step { kind: 5, actor, target, value }));
        }
    }
    steps
}

/// All states after at most so many steps, from the beginning on.
fn states(rules: &Rules, depth: u32) -> BTreeSet<Key> {
    let first = key(rules, &begin(rules));
    let mut seen = BTreeSet::from([first.clone()]);
    let mut edge = vec![first];
    for _ in 0..depth {
        let mut new_edge = Vec::new();
        for old in &edge {
            let state = state_of(old);
            for step in steps(rules, &state) {
                let mut after = state.clone();
                if carry_out(rules, &mut after, &step) && seen.insert(key(rules, &after)) {
                    new_edge.push(key(rules, &after));
                }
            }
        }
        edge = new_edge;
    }
    seen
}

/// The pairs of user and session value that stand open in these states.
fn pairs_in(states: &BTreeSet<Key>) -> BTreeSet<(u32, u32)> {
    states.iter().flat_map(|(sessions, _)| sessions.iter().flatten().copied()).collect()
}

/// The values of the asked item, or of some item, in these states.
fn values_in(states: &BTreeSet<Key>, asked: &Question) -> BTreeSet<u32> {
    let items = |(_, items): &Key| match asked.which {
        Which::StartingItem(number) => vec![items[number as usize]],
        Which::AnyItem => items.clone(),
    };
    states.iter().flat_map(items).collect()
}

/// Whether some grant in this state fits the question.
fn grants(rules: &Rules, state: &State, asked: &Question) -> bool {
    let permission = u64::from(asked.permission);
    for actor in 0..state.sessions.len() as u64 {
        for target in 0..state.items.len() as u64 {
            let step = Step { kind: 6, actor, target, value: permission };
            let user = open_session(state, actor).map(|session| session.user);
            let fits = user.map_or(false, |user| asked.fits(actor, user, target, permission));
            if fits && carry_out(rules, &mut state.clone(), &step) {
                return true;
            }
        }
    }
    false
}

fn found(file: &[u8], bytes: &[u8], depth: u32) -> Result<Found, u32> {
    let rules = read(file)?;
    let without = Rules { sessions: Vec::new(), ..rules.clone() };
    let could_open = pairs_in(&states(&without, depth));
    if rules.sessions.iter().any(|session| !could_open.contains(&(session.user, session.value))) {
        return Err(9);
    }
    let asked = question(&rules, bytes)?;
    let states = states(&rules, depth);
    let leak = states.iter().any(|key| grants(&rules, &state_of(key), &asked));
    Ok(Found { number: 0, leak, pairs: pairs_in(&states), values: values_in(&states, &asked) })
}

/// What all runs of at most `depth` steps and one grant after them show of a question.
pub fn exhaustive(file: &[u8], question: &[u8], depth: u32) -> Found {
    match found(file, question, depth) {
        Ok(found) => found,
        Err(number) => Found { number, leak: false, pairs: BTreeSet::new(), values: BTreeSet::new() },
    }
}
