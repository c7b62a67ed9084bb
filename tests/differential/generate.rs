//! Rules and files: good ones of all widths and shapes, spoiled ones with known numbers, and questions.

use crate::random::Random;
use crate::second::formula::holders_of;
use crate::second::read::read;
use crate::second::rules::{Attribute, RawRules};
use crate::second::text::assemble;
use crate::second::value::decode;

/// Rules of the policies of the sources.
const POLICIES: [&str; 3] = [
    include_str!("../../examples/dac.rules.txt"),
    include_str!("../../examples/mac.rules.txt"),
    include_str!("../../examples/rbac.rules.txt"),
];

/// The numbers and sizes of the lists that a file may use; a third of the files have list 0 throughout.
fn lists(random: &Random) -> Vec<(u32, u32)> {
    let mut lists = Vec::new();
    if random.once_in(3) {
        return lists;
    }
    for _ in 0..random.from_to(1, 3) {
        let number = *random.pick(&[1, 31, random.from_to(1, 31) as u32]);
        let size = *random.pick(&[2, random.from_to(1, 4), random.from_to(1, 8), random.from_to(1, 16)]) as u32;
        if lists.iter().all(|(other, _)| *other != number) {
            lists.push((number, size));
        }
    }
    lists
}

/// The attributes of a class, of at most `most` bits; most of them use one of the lists, if there are any.
fn attributes(random: &Random, most: u32, lists: &[(u32, u32)]) -> Vec<Attribute> {
    let mut list = Vec::new();
    let mut left = most;
    for _ in 0..random.below(5) {
        let set = random.once_in(2);
        let size = if set { random.from_to(1, 8) } else { random.from_to(1, 16) } as u32;
        let mut attribute = Attribute { set, size, list: 0 };
        if !lists.is_empty() && !random.once_in(4) {
            let (number, size) = *random.pick(lists);
            attribute = Attribute { set: set && size <= 8, size, list: number };
        }
        if attribute.width() <= left {
            left -= attribute.width();
            list.push(attribute);
        }
    }
    list
}

/// The class's attributes as they stand in memory.
pub fn attributes_of(raw: &RawRules, class: usize) -> Vec<Attribute> {
    let class = &raw.classes[class];
    (0..class.count as usize)
        .map(|k| Attribute { set: class.kinds[k] == 1, size: u32::from(class.sizes[k]), list: u32::from(class.lists[k]) })
        .collect()
}

/// A value in the lists of the class.
fn value(random: &Random, attributes: &[Attribute]) -> u8 {
    loop {
        let v = random.below(256) >> random.below(8);
        if decode(attributes, v).is_some() {
            return v as u8;
        }
    }
}

/// An operand and its attribute.
#[derive(Clone, Copy)]
pub struct Operand {
    pub code: u32,
    pub class: usize,
    pub place: usize,
    pub attribute: Attribute,
}

/// The attributes that a formula may look at.
pub fn operands(raw: &RawRules, formula: usize) -> Vec<Operand> {
    let mut list = Vec::new();
    for &holder in holders_of(formula) {
        let class = [0, 1, 1, 2, 2][holder as usize];
        for (place, attribute) in attributes_of(raw, class).into_iter().enumerate() {
            list.push(Operand { code: holder * 32 + place as u32, class, place, attribute });
        }
    }
    list
}

/// An operand of a kind, its code and its list: an attribute of the list that is asked for, if one is, or a constant, which is atomic and of no list.
fn side(random: &Random, operands: &[Operand], set: bool, list: Option<u32>) -> Option<(u32, Option<u32>)> {
    let fits = |one: &&Operand| one.attribute.set == set && list.map_or(true, |list| one.attribute.list == list);
    let fitting: Vec<&Operand> = operands.iter().filter(fits).collect();
    if !set && (fitting.is_empty() || random.once_in(4)) {
        return Some((160 + random.below(16) as u32, None));
    }
    let one = if fitting.is_empty() { None } else { Some(*random.pick(&fitting)) };
    one.map(|one| (one.code, Some(one.attribute.list)))
}

/// A comparison by an operator whose sides are of one list, unless there is nothing to compare.
fn comparison(random: &Random, operands: &[Operand], operator: u32) -> Option<(u32, u32)> {
    let (b, list) = side(random, operands, operator >= 8, None)?;
    let (a, _) = side(random, operands, operator >= 9, list)?;
    Some((a, b))
}

/// A node that may stand at a place of a formula.
fn node(random: &Random, operands: &[Operand], place: u64) -> u32 {
    let earlier = |random: &Random| random.below(place) as u32;
    let operator = random.below(11) as u32;
    let sides = match operator {
        2 if place > 0 => Some((earlier(random), 0)),
        3 | 4 if place > 0 => Some((earlier(random), earlier(random))),
        5..=10 => comparison(random, operands, operator),
        _ => None,
    };
    match sides {
        Some((a, b)) => operator * 65536 + a * 256 + b,
        None => random.below(2) as u32 * 65536,
    }
}

fn formula(random: &Random, raw: &mut RawRules, f: usize) {
    let operands = operands(raw, f);
    let most = *random.pick(&[1, 2, 4, 8, 16, 64]);
    let length = random.from_to(1, most);
    for place in 0..length {
        raw.nodes[f][place as usize] = node(random, &operands, place);
    }
    raw.lengths[f] = length as u8;
}

/// Users, starting sessions and starting items.
fn holders(random: &Random, raw: &mut RawRules) {
    let [user, session, item] = [0, 1, 2].map(|class| attributes_of(raw, class));
    for u in 0..raw.users.count as usize {
        raw.users.values[u] = value(random, &user);
    }
    for k in 0..raw.sessions.count as usize {
        raw.sessions.owners[k] = random.below(u64::from(raw.users.count)) as u8;
        raw.sessions.values[k] = value(random, &session);
    }
    for k in 0..raw.items.count as usize {
        raw.items.values[k] = value(random, &item);
    }
}

/// Rules of no source; in half of them a session may be opened with any value, so that the starting ones could have been brought about.
fn invented(random: &Random, most: u32) -> RawRules {
    let mut raw = RawRules::zero();
    let lists = lists(random);
    for class in 0..3 {
        let list = attributes(random, if class == 0 { 8 } else { most }, &lists);
        raw.classes[class].count = list.len() as u8;
        for (k, attribute) in list.iter().enumerate() {
            raw.classes[class].kinds[k] = attribute.set as u8;
            raw.classes[class].sizes[k] = attribute.size as u8;
            raw.classes[class].lists[k] = attribute.list as u8;
        }
    }
    let many = random.once_in(20);
    raw.users.count = random.from_to(1, if many { 16 } else { 4 }) as u8;
    raw.sessions.count = random.below(if many { 33 } else { 3 }) as u8;
    raw.items.count = random.below(if many { 33 } else { 4 }) as u8;
    raw.permissions = random.from_to(1, if many { 8 } else { 2 }) as u8;
    holders(random, &mut raw);
    for f in 0..4 + raw.permissions as usize {
        formula(random, &mut raw, f);
    }
    if random.once_in(2) {
        raw.lengths[0] = 1;
        raw.nodes[0][0] = 65536;
    }
    raw
}

/// A policy of the sources with other users and other starts. Their attributes are compared with those of the same size only, so in half of them
/// a list for each size is put in.
fn sourced(random: &Random) -> RawRules {
    let file = assemble(random.pick::<&str>(&POLICIES)).expect("a policy under examples/");
    let mut raw = RawRules::of(&read(&file).expect("a policy under examples/"));
    raw.users.count = random.from_to(1, 16) as u8;
    raw.sessions.count = random.below(3) as u8;
    raw.items.count = random.below(6) as u8;
    holders(random, &mut raw);
    if random.once_in(2) {
        let more = random.below(16) as u8;
        for class in &mut raw.classes {
            for k in 0..class.count as usize {
                class.lists[k] = class.sizes[k] + more;
            }
        }
    }
    raw
}

/// Rules that a file can hold.
pub fn rules(random: &Random) -> RawRules {
    match random.below(40) {
        0..=7 => sourced(random),
        8..=29 => invented(random, 3),
        30..=37 => invented(random, 4),
        38 => invented(random, 6),
        _ => match random.once_in(8) {
            true => invented(random, 8),
            false => invented(random, 5),
        },
    }
}

/// A question: mostly one that the rules can be asked.
pub fn question(random: &Random, raw: &RawRules) -> Vec<u8> {
    let number = |random: &Random, count: u8| match random.once_in(16) {
        true => random.below(64),
        false => random.below(u64::from(count).max(1)),
    };
    let who = random.below(if random.once_in(40) { 4 } else { 3 });
    let who_number = [raw.sessions.count, raw.users.count, 1, 1][who as usize];
    let first = who * 64 + number(random, who_number);
    let any = random.once_in(2);
    let second = if any { 128 } else { number(random, raw.items.count) };
    let third = 16 * (number(random, raw.permissions) % 16);
    let mut bytes = vec![first as u8, second as u8, third as u8];
    match random.below(60) {
        0 => bytes.truncate(random.below(3) as usize),
        1 => bytes.push(0),
        2 => bytes[random.below(3) as usize] ^= 1 << random.below(8),
        _ => (),
    }
    bytes
}
