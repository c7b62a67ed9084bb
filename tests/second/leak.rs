//! A leak, step by step: it shows that a verdict of leak is right. Any other leak that replays would do as well.

use super::analyse::{known, Known, Reach};
use super::formula::{may_change_item, may_make};
use super::question::{Which, Who};
use super::run::Step;

/// A leak being put together. Every session that acts is opened for it, but the asked starting session.
struct Path<'a> {
    known: &'a Known,
    steps: Vec<Step>,
    next_session: u64,
}

/// The values on the way to a value, from a first one on.
fn way(reach: &Reach, value: u32) -> Vec<u32> {
    let mut way = vec![value];
    let mut last = value;
    while reach[&last] != last {
        last = reach[&last];
        way.push(last);
    }
    way.reverse();
    way
}

impl Path<'_> {
    fn step(&mut self, kind: u64, actor: u64, target: u64, value: u32) {
        self.steps.push(Step { kind, actor, target, value: u64::from(value) });
    }

    /// Changes a session along a way whose first value it has.
    fn change_session(&mut self, user: u32, number: u64, way: &[u32]) {
        for value in &way[1..] {
            self.step(3, u64::from(user), number, *value);
        }
    }

    /// Opens a session of a user and brings it to a value; returns its number.
    fn open(&mut self, user: u32, value: u32) -> u64 {
        let way = way(&self.known.opened[user as usize], value);
        let number = self.next_session;
        self.next_session += 1;
        self.step(1, u64::from(user), number, way[0]);
        self.change_session(user, number, &way);
        number
    }

    /// Opens a helper whose session value will do; returns its number.
    fn helper(&mut self, will_do: impl Fn(u32) -> bool) -> u64 {
        let opened = &self.known.opened;
        let pairs = opened.iter().enumerate().flat_map(|(user, reach)| reach.keys().map(move |value| (user, *value)));
        let (user, value) = pairs.into_iter().find(|(_, value)| will_do(*value)).expect("a reached value has a helper");
        self.open(user as u32, value)
    }

    /// Brings the asked session, or a new one, to a value; returns its number.
    fn asker(&mut self, user: u32, value: u32) -> u64 {
        match self.known.asked.who {
            Who::StartingSession(number) => {
                let way = way(&self.known.askers[0].1, value);
                self.change_session(user, u64::from(number), &way);
                u64::from(number)
            }
            _ => self.open(user, value),
        }
    }

    /// Brings the asked item, or some item, to a value; returns its number.
    fn item(&mut self, value: u32) -> u64 {
        let known = self.known;
        let way = way(&known.items, value);
        let starting = known.rules.items.iter().position(|item| *item == way[0]);
        let number = match (known.asked.which, starting) {
            (Which::StartingItem(number), _) => u64::from(number),
            (Which::AnyItem, Some(place)) => place as u64,
            (Which::AnyItem, None) => {
                let maker = self.helper(|session| may_make(&known.rules, session, way[0]));
                let number = known.rules.items.len() as u64;
                self.step(4, maker, number, way[0]);
                number
            }
        };
        for pair in way.windows(2) {
            let changer = self.helper(|session| may_change_item(&known.rules, session, pair[0], pair[1]));
            self.step(5, changer, number, pair[1]);
        }
        number
    }
}

/// The steps of a leak, if the answer is a leak.
pub fn leak(file: &[u8], question: &[u8], rows_len: usize) -> Option<Vec<Step>> {
    let known = known(file, question, rows_len).ok()?;
    let (user, session, item) = known.grant()?;
    let mut path = Path { known: &known, steps: Vec::new(), next_session: known.rules.sessions.len() as u64 };
    let actor = path.asker(user, session);
    let target = path.item(item);
    path.step(6, actor, target, known.asked.permission);
    Some(path.steps)
}
