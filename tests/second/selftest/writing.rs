//! Writing: the settled readings 7 and 8, and list numbers.

use super::lists::counter_with_lists;
use super::{Checks, COUNTER};
use crate::second::read::read;
use crate::second::rules::RawRules;
use crate::second::write::write;

/// The counter file's rules in memory.
fn counter() -> RawRules {
    RawRules::of(&read(&COUNTER).unwrap())
}

/// The number that writing changed rules gives, with nothing written; 0 if they are written.
fn number(checks: &mut Checks, change: impl Fn(&mut RawRules)) -> u32 {
    let mut raw = counter();
    change(&mut raw);
    let mut out = [0xA5; 2000];
    let number = write(&raw, &mut out).err().unwrap_or(0);
    checks.holds("a refusal writes nothing", number == 0 || out == [0xA5; 2000]);
    number
}

pub fn all(checks: &mut Checks) {
    let mut out = [0xA5; 40];
    checks.same("the counter file's length", write(&counter(), &mut out), Ok(33));
    checks.holds("the counter file written", out[..33] == COUNTER && out[33..] == [0xA5; 7]);
    let mut short = [0xA5; 32];
    checks.same("a slice too short", write(&counter(), &mut short), Err(11));
    checks.same("a slice too short is unchanged", short, [0xA5; 32]);
    checks.same("a slice just long enough", write(&counter(), &mut [0; 33]), Ok(33));
    let mut bad = counter();
    bad.lengths[4] = 0;
    checks.same("8 before 11", write(&bad, &mut []), Err(8));
    faults(checks);
    order(checks);
    uncovered(checks);
    lists(checks);
}

fn faults(checks: &mut Checks) {
    let mut expect = |what: &str, expected: u32, change: fn(&mut RawRules)| {
        let found = number(checks, change);
        checks.same(what, found, expected);
    };
    expect("17 user attributes", 2, |raw| raw.classes[0].count = 17);
    expect("9 item attributes", 2, |raw| raw.classes[2].count = 9);
    expect("33 users, 1 if cut to 5 bits", 2, |raw| raw.users.count = 33);
    expect("64 starting sessions, 0 if cut", 2, |raw| raw.sessions.count = 64);
    expect("128 starting items, 0 if cut", 2, |raw| raw.items.count = 128);
    expect("17 permissions, 1 if cut", 2, |raw| raw.permissions = 17);
    expect("no permission", 2, |raw| raw.permissions = 0);
    expect("kind 2", 4, |raw| raw.classes[0].kinds[0] = 2);
    expect("size 33, 1 if cut", 4, |raw| raw.classes[0].sizes[0] = 33);
    expect("size 0", 4, |raw| raw.classes[1].sizes[0] = 0);
    expect("a set of 9", 4, |raw| raw.classes[1].sizes[0] = 9);
    expect("two item attributes of 4 and 8 bits", 5, |raw| {
        raw.classes[2] = raw.classes[1];
        raw.classes[2].count = 2;
        raw.classes[2].sizes = [8; 8];
    });
    expect("a user's value above its width", 6, |raw| raw.users.values[0] = 2);
    expect("a user's value at width 0", 6, |raw| {
        raw.classes[0].count = 0;
        raw.users.values = [0; 16];
        raw.users.values[1] = 1;
    });
    expect("an item's code not in its list", 6, |raw| {
        raw.classes[2].sizes[0] = 3;
        raw.items.count = 1;
        raw.items.values[0] = 3;
    });
    expect("a session of user 17, 1 if cut", 7, |raw| {
        raw.sessions.count = 1;
        raw.sessions.owners[0] = 17;
    });
    expect("a formula of 0 nodes", 8, |raw| raw.lengths[0] = 0);
    expect("a formula of 65 nodes", 8, |raw| raw.lengths[4] = 65);
    expect("operator 17, 1 if cut", 8, |raw| raw.nodes[0][0] = 17 << 16);
    expect("the greatest node", 8, |raw| raw.nodes[4][2] = u32::MAX);
}

/// The first fault in reading order decides.
fn order(checks: &mut Checks) {
    let faults: [(u32, fn(&mut RawRules)); 6] = [
        (8, |raw| raw.lengths[0] = 0),
        (7, |raw| {
            raw.sessions.count = 1;
            raw.sessions.owners[0] = 2;
            raw.sessions.values[0] = 255;
        }),
        (6, |raw| raw.users.values[1] = 255),
        (5, |raw| {
            raw.classes[2].count = 2;
            raw.classes[2].kinds[1] = 1;
            raw.classes[2].sizes[1] = 8;
        }),
        (4, |raw| raw.classes[1].sizes[0] = 255),
        (2, |raw| raw.permissions = 255),
    ];
    let mut raw = counter();
    for (expected, fault) in faults {
        fault(&mut raw);
        checks.same("the first of several faults", write(&raw, &mut []), Err(expected));
    }
}

/// Places that no count covers say nothing.
fn uncovered(checks: &mut Checks) {
    let mut raw = counter();
    for class in &mut raw.classes {
        class.kinds[1..].fill(255);
        class.sizes[1..].fill(255);
        class.lists[1..].fill(255);
    }
    raw.users.values[2..].fill(255);
    raw.sessions.owners.fill(255);
    raw.sessions.values.fill(255);
    raw.items.values.fill(255);
    raw.lengths[5..].fill(255);
    for formula in 0..12 {
        let length = if formula < 5 { raw.lengths[formula] as usize } else { 0 };
        raw.nodes[formula][length..].fill(u32::MAX);
    }
    let mut out = [0; 33];
    checks.same("places that no count covers", write(&raw, &mut out), Ok(33));
    checks.same("the same file without them", out, COUNTER);
}

/// List numbers: 18 for one that 5 bits don't hold and for a size that differs, 19 for compared lists that differ.
fn lists(checks: &mut Checks) {
    let listed = RawRules::of(&read(&counter_with_lists()).unwrap());
    let mut expect = |what: &str, expected: u32, change: fn(&mut RawRules)| {
        let mut raw = listed.clone();
        change(&mut raw);
        let mut out = [0xA5; 2000];
        checks.same(what, write(&raw, &mut out).err().unwrap_or(0), expected);
        checks.holds("a refusal writes nothing", expected == 0 || out == [0xA5; 2000]);
        let found = write(&raw, &mut []).err().unwrap_or(0);
        checks.same("11 last", found, if expected == 0 { 11 } else { expected });
    };
    expect("the counter file with lists", 0, |_| ());
    let great: [fn(&mut RawRules); 5] = [
        |raw| raw.classes[0].lists[0] = 32,
        |raw| raw.classes[1].lists[0] = 255,
        |raw| raw.classes[2].lists[0] = 32,
        |raw| raw.classes[2].lists[0] = 128,
        |raw| raw.classes.iter_mut().for_each(|class| class.lists[0] = 32),
    ];
    for change in great {
        expect("a list number of 32 or more", 18, change);
    }
    expect("33 for both sets, 1 if cut", 18, |raw| raw.classes[..2].iter_mut().for_each(|class| class.lists[0] = 33));
    expect("a size that differs", 18, |raw| raw.classes[2].lists[0] = 1);
    expect("a size that differs, changed", 18, |raw| raw.classes[1].sizes[0] = 2);
    expect("another free list", 0, |raw| raw.classes[2].lists[0] = 30);
    expect("list 0 beside lists", 0, |raw| raw.classes[2].lists[0] = 0);
    expect("list 0 against list 1", 19, |raw| raw.classes[0].lists[0] = 0);
    expect("list 31 against list 1", 19, |raw| {
        raw.classes[0].lists[0] = 31;
        raw.classes[2].lists[0] = 0;
    });
    expect("4 before 18", 4, |raw| {
        raw.classes[1].sizes[0] = 9;
        raw.classes[1].lists[0] = 32;
    });
    expect("kind 2 before 18", 4, |raw| {
        raw.classes[1].kinds[0] = 2;
        raw.classes[1].lists[0] = 32;
    });
    expect("18 before 5", 18, |raw| {
        raw.classes[2].count = 2;
        raw.classes[2].kinds = [1; 8];
        raw.classes[2].sizes = [8; 8];
        raw.classes[2].lists[1] = 32;
    });
    expect("18 before 4 of a later class", 18, |raw| {
        raw.classes[0].lists[0] = 64;
        raw.classes[2].sizes[0] = 0;
    });
    expect("6 before 19", 6, |raw| {
        raw.classes[0].lists[0] = 2;
        raw.users.values[1] = 2;
    });
    expect("19 before 8 of a later formula", 19, |raw| {
        raw.classes[0].lists[0] = 2;
        raw.lengths[4] = 65;
    });
    expect("8 before 19 at one node", 8, |raw| {
        raw.classes[0].lists[0] = 2;
        raw.nodes[0][0] += 32 * 256;
    });
    expect("8 before 19 of a later formula", 8, |raw| {
        raw.classes[1].lists[0] = 2;
        raw.lengths[0] = 0;
    });
}
