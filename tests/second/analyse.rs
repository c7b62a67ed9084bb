//! The analyser: which values sessions and items can take, by closures, and the verdict.

use std::collections::BTreeMap;

use super::formula::{may_access, may_change_item, may_change_session, may_make, may_open};
use super::question::{question, Question, Which, Who};
use super::read::read;
use super::rules::{width, Rules, ITEM, SESSION};

#[derive(Clone, Copy, Debug, PartialEq, Eq)]
pub enum Verdict {
    /// A number is given instead.
    Refused,
    Safe,
    Leak,
}

/// An answer. `number` is 0 unless the verdict is `Refused`; the counts are then 0.
#[derive(Clone, Copy, Debug, PartialEq, Eq)]
pub struct Answer {
    pub number: u32,
    pub verdict: Verdict,
    pub pairs: u64,
    pub values: u64,
}

/// The values that can be reached, each with the value before it; a first one has itself.
pub type Reach = BTreeMap<u32, u32>;

/// The values reached from the first ones by any number of leads.
fn closure(all: &[u32], first: Vec<u32>, leads: impl Fn(u32, u32) -> bool) -> Reach {
    let mut reach: Reach = first.iter().map(|value| (*value, *value)).collect();
    let mut waiting = first;
    while let Some(old) = waiting.pop() {
        for new in all {
            if !reach.contains_key(new) && leads(old, *new) {
                reach.insert(*new, old);
                waiting.push(*new);
            }
        }
    }
    reach
}

/// The values that a session of a user can take by changes, if it has one of the first values.
fn changed_sessions(rules: &Rules, user: u32, first: Vec<u32>) -> Reach {
    closure(&rules.values(SESSION), first, |old, new| may_change_session(rules, user, old, new))
}

/// The values that some session opened by a user can take.
fn opened_sessions(rules: &Rules, user: u32) -> Reach {
    let first = rules.values(SESSION).into_iter().filter(|value| may_open(rules, user, *value)).collect();
    changed_sessions(rules, user, first)
}

/// How many rows a slice needs, by the widths of sessions and items.
pub fn rows_needed(session_width: u32, item_width: u32) -> u64 {
    let (sessions, items) = (1u64 << session_width, 1u64 << item_width);
    sessions + items * (sessions + 1) + 1
}

/// What is known of a file and a question that are not refused.
pub struct Known {
    pub rules: Rules,
    pub asked: Question,
    /// For each user, the values that sessions opened by that user can take.
    pub opened: Vec<Reach>,
    /// The users and values of sessions that the question is about.
    pub askers: Vec<(u32, Reach)>,
    /// The values of the asked item, or of some item.
    pub items: Reach,
}

/// The users and values of sessions that the question is about: a starting session has what it can reach itself.
fn askers(rules: &Rules, asked: &Question, opened: &[Reach]) -> Vec<(u32, Reach)> {
    let of_user = |user: u32| (user, opened[user as usize].clone());
    match asked.who {
        Who::StartingSession(number) => {
            let session = rules.sessions[number as usize];
            vec![(session.user, changed_sessions(rules, session.user, vec![session.value]))]
        }
        Who::SessionsOf(user) => vec![of_user(user)],
        Who::AnySession => (0..rules.users.len() as u32).map(of_user).collect(),
    }
}

/// The values of the asked item, or of some item; every session that can be open may help.
fn items(rules: &Rules, asked: &Question, opened: &[Reach]) -> Reach {
    let mut helpers: Vec<u32> = opened.iter().flat_map(Reach::keys).copied().collect();
    helpers.sort();
    helpers.dedup();
    let all = rules.values(ITEM);
    let made = |value: &u32| helpers.iter().any(|helper| may_make(rules, *helper, *value));
    let first = match asked.which {
        Which::StartingItem(number) => vec![rules.items[number as usize]],
        Which::AnyItem => all.iter().copied().filter(|value| rules.items.contains(value) || made(value)).collect(),
    };
    closure(&all, first, |old, new| helpers.iter().any(|helper| may_change_item(rules, *helper, old, new)))
}

/// What is known of a file and a question, or the number given instead.
pub fn known(file: &[u8], bytes: &[u8], rows_len: usize) -> Result<Known, u32> {
    let rules = read(file)?;
    let opened: Vec<Reach> = (0..rules.users.len() as u32).map(|user| opened_sessions(&rules, user)).collect();
    if rules.sessions.iter().any(|session| !opened[session.user as usize].contains_key(&session.value)) {
        return Err(9);
    }
    let asked = question(&rules, bytes)?;
    let needed = rows_needed(width(&rules.attributes[SESSION]), width(&rules.attributes[ITEM]));
    if (rows_len as u64) < needed {
        return Err(11);
    }
    let (askers, items) = (askers(&rules, &asked, &opened), items(&rules, &asked, &opened));
    Ok(Known { rules, asked, opened, askers, items })
}

impl Known {
    /// A user, a session value and an item value to which the asked permission is granted, if there are any.
    pub fn grant(&self) -> Option<(u32, u32, u32)> {
        for (user, reach) in &self.askers {
            for session in reach.keys() {
                let granted = |item: &&u32| may_access(&self.rules, self.asked.permission, *session, **item);
                if let Some(item) = self.items.keys().find(granted) {
                    return Some((*user, *session, *item));
                }
            }
        }
        None
    }
}

/// Answers a question about a file, for a slice of so many rows.
pub fn analyse(file: &[u8], question: &[u8], rows_len: usize) -> Answer {
    match known(file, question, rows_len) {
        Ok(known) => Answer {
            number: 0,
            verdict: if known.grant().is_some() { Verdict::Leak } else { Verdict::Safe },
            pairs: known.opened.iter().map(Reach::len).sum::<usize>() as u64,
            values: known.items.len() as u64,
        },
        Err(number) => Answer { number, verdict: Verdict::Refused, pairs: 0, values: 0 },
    }
}
