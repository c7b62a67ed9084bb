//! Live states, also such that no run left, and rows for them.

use crate::library::Live;
use crate::random::Random;
use crate::second::monitor::row_of;
use crate::second::rules::RawRules;

/// How many numbers can be given.
const NUMBERS: u64 = 1_048_576;

/// Cells with anything in them; many look like sessions or items.
pub fn cells(random: &Random, count: u64) -> Vec<u64> {
    (0..count)
        .map(|_| match random.below(6) {
            0 => 0,
            1 => random.word(),
            2 => random.below(1 << 18),
            _ => 65536 + 256 * random.below(4) + random.below(8),
        })
        .collect()
}

/// A state that no run left.
pub fn strange(random: &Random) -> Live {
    let (n, m) = (random.below(6), random.below(6));
    let next = || match random.below(12) {
        0 => NUMBERS,
        1 => NUMBERS + random.below(5),
        2 => random.word(),
        3 => NUMBERS - 1,
        _ => random.below(7),
    };
    let next = [next(), next()];
    Live { sessions: cells(random, n), items: cells(random, m), next }
}

/// Cells for a start, sometimes too few.
pub fn fresh(random: &Random, raw: &RawRules) -> Live {
    let room = |random: &Random, starting: u8| match random.once_in(6) {
        true => random.below(u64::from(starting) + 1),
        false => u64::from(starting) + random.below(4),
    };
    let (n, m) = (room(random, raw.sessions.count), room(random, raw.items.count));
    Live { sessions: cells(random, n), items: cells(random, m), next: [random.word(), random.word()] }
}

/// A number below the next one, mostly.
fn given(random: &Random, next: u64) -> u64 {
    match random.once_in(8) {
        true => random.below(1 << 20),
        false => random.below(next.clamp(1, 6)),
    }
}

/// The next number, mostly.
fn to_give(random: &Random, next: u64) -> u64 {
    match random.once_in(8) {
        true => random.below(8),
        false => next % NUMBERS,
    }
}

/// The user whom a session's cell codes, mostly.
fn owner(random: &Random, live: &Live, session: u64) -> u64 {
    let coded = live.sessions.get(session as usize).map_or(0, |cell| cell / 256 % 256);
    if random.once_in(8) { random.below(17) } else { coded }
}

/// A row that often can be carried out.
pub fn row(random: &Random, raw: &RawRules, live: &Live) -> u64 {
    let kind = if random.once_in(20) { random.below(16) } else { random.from_to(1, 6) };
    let target = match kind {
        1 => to_give(random, live.next[0]),
        2 | 3 => given(random, live.next[0]),
        4 => to_give(random, live.next[1]),
        _ => given(random, live.next[1]),
    };
    let actor = match kind {
        1 => random.below(u64::from(raw.users.count) + 1),
        2 | 3 => owner(random, live, target),
        _ => given(random, live.next[0]),
    };
    let value = match kind {
        2 => random.below(16) / 15,
        6 => random.below(u64::from(raw.permissions) + 1),
        _ => random.below(*random.pick(&[2, 4, 4, 8, 16, 256, 4096])),
    };
    let spare = if random.once_in(40) { random.below(256) } else { 0 };
    row_of(kind, actor, target, value) | spare
}
