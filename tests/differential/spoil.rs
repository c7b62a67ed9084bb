//! Files and rules with a fault whose number is known; of files also how many bits reading takes until it is judged.

use crate::fields::{written, Field};
use crate::lists::{self, after_list, inside_list, places};
use crate::random::Random;
use crate::second::rules::RawRules;

/// The numbers that a file can give, and what gives them.
pub const WAYS: [(u32, &str); 25] = [
    (1, "a field cut off"),
    (2, "user attributes"),
    (2, "session attributes"),
    (2, "item attributes"),
    (2, "users"),
    (2, "starting sessions"),
    (2, "starting items"),
    (2, "permissions"),
    (3, "the head's spare"),
    (3, "an attribute's last bit"),
    (3, "filling bits"),
    (3, "bytes after filling bits"),
    (3, "bytes after no filling bits"),
    (4, "a size"),
    (5, "users' width"),
    (5, "sessions' width"),
    (5, "items' width"),
    (6, "a user's value"),
    (6, "a session's value"),
    (6, "an item's value"),
    (7, "a session's user"),
    (8, "a node count"),
    (8, "a node"),
    (18, "a list number"),
    (19, "a node"),
];

/// What a fault of a field is called among the ways.
fn way(field: Field) -> &'static str {
    match field {
        Field::Count(k) => WAYS[1 + k].1,
        Field::Spare => "the head's spare",
        Field::Size(..) => "a size",
        Field::List(..) => "a list number",
        Field::Last(..) => "an attribute's last bit",
        Field::Class(class) => ["users' width", "sessions' width", "items' width"][class],
        Field::Value(class, ..) => ["a user's value", "a session's value", "an item's value"][class],
        Field::Owner(_) => "a session's user",
        Field::Length(_) => "a node count",
        Field::Node(..) => "a node",
        Field::Filling => "filling bits",
    }
}

/// A file with a fault: its number, what gives it, and how many bits reading takes.
pub struct Fault {
    pub bytes: Vec<u8>,
    pub number: u32,
    pub way: &'static str,
    pub bits: u64,
}

/// The file of rules, nothing judged.
pub fn file_of(raw: &RawRules) -> Vec<u8> {
    written(raw).bytes()
}

/// A place of a class's attributes, if it has any.
fn some_attribute(random: &Random, raw: &RawRules) -> Option<(usize, usize)> {
    let class = random.below(3) as usize;
    let count = u64::from(raw.classes[class].count);
    (count > 0).then(|| (class, random.below(count) as usize))
}

fn spoil_head(random: &Random, raw: &mut RawRules) -> Field {
    let k = random.below(7) as usize;
    match k {
        0..=2 => raw.classes[k].count = random.from_to(9, 15) as u8,
        3 => raw.users.count = *random.pick(&[0, 17, 20, 31]),
        4 => raw.sessions.count = random.from_to(33, 63) as u8,
        5 => raw.items.count = random.from_to(33, 63) as u8,
        _ => raw.permissions = *random.pick(&[0, 9, 12, 15]),
    }
    Field::Count(k)
}

fn spoil_size(random: &Random, raw: &mut RawRules) -> Option<Field> {
    let (class, k) = some_attribute(random, raw)?;
    let set = raw.classes[class].kinds[k] == 1;
    raw.classes[class].sizes[k] = *random.pick(if set { &[0, 9, 16, 31] } else { &[0, 17, 24, 31] });
    if random.once_in(2) {
        raw.classes[class].lists[k] = random.below(32) as u8;
    }
    Some(Field::Size(class, k))
}

fn spoil_width(random: &Random, raw: &mut RawRules) -> Field {
    let c = random.below(3) as usize;
    let class = &mut raw.classes[c];
    class.count = 3;
    class.kinds = [1, 1, 0, 0, 0, 0, 0, 0];
    class.lists = [0; 8];
    class.sizes = [random.from_to(4, 8) as u8, random.from_to(5, 8) as u8, 1, 0, 0, 0, 0, 0];
    Field::Class(c)
}

/// Gives a class two atomic attributes, of sizes 3 and 5 in 2 and 3 bits, and one of its holders a code that one of the two has not.
fn spoil_value(random: &Random, raw: &mut RawRules) -> Field {
    let c = random.below(3) as usize;
    let class = &mut raw.classes[c];
    class.count = 2;
    class.kinds[..2].fill(0);
    class.sizes[..2].copy_from_slice(&[3, 5]);
    class.lists[..2].fill(0);
    raw.sessions.count = raw.sessions.count.max((c == 1) as u8);
    raw.items.count = raw.items.count.max((c == 2) as u8);
    let (count, values) = match c {
        0 => (raw.users.count, &mut raw.users.values[..]),
        1 => (raw.sessions.count, &mut raw.sessions.values[..]),
        _ => (raw.items.count, &mut raw.items.values[..]),
    };
    values.iter_mut().for_each(|value| *value = (8 * random.below(3) + random.below(5)) as u8);
    let holder = random.below(u64::from(count)) as usize;
    let attribute = random.below(2) as usize;
    let codes = if attribute == 0 { 8 * 3 + random.below(8) } else { 8 * random.below(3) + random.from_to(5, 7) };
    values[holder] = codes as u8;
    Field::Value(c, holder, attribute)
}

fn spoil_owner(random: &Random, raw: &mut RawRules) -> Field {
    let users = raw.users.count.min(15);
    raw.users.count = users;
    raw.sessions.count = raw.sessions.count.max(1);
    raw.sessions.owners.iter_mut().for_each(|owner| *owner %= users);
    let k = random.below(u64::from(raw.sessions.count)) as usize;
    raw.sessions.owners[k] = random.from_to(u64::from(users), 15) as u8;
    Field::Owner(k)
}

fn spoil_formula(random: &Random, raw: &mut RawRules) -> Field {
    let f = random.below(4 + u64::from(raw.permissions)) as usize;
    let place = random.below(u64::from(raw.lengths[f])) as u32;
    let wrong = lists::wrong_kinds(random, raw, f).unwrap_or(8 * 65536 + 160 * 256 + 160);
    let node = match random.below(9) {
        0 => {
            raw.lengths[f] = *random.pick(&[0, 65, 200, 255]);
            return Field::Length(f);
        }
        1 => 2 * 65536 + place * 256,
        2 => 3 * 65536 + place,
        3 => random.from_to(11, 15) as u32 * 65536,
        4 => random.from_to(1, 65535) as u32,
        5 => 5 * 65536 + 176 * 256 + 160,
        6 => 9 * 65536 + 160 * 256 + 160,
        7 => wrong,
        _ => 6 * 65536 + 200 * 256 + 160,
    };
    raw.nodes[f][place as usize] = node;
    Field::Node(f, place as usize)
}

/// A file with one fault; none where the rules have no place for it.
pub fn file(random: &Random, good: &RawRules) -> Option<Fault> {
    let mut raw = good.clone();
    let number = *random.pick(&[1, 2, 3, 4, 5, 6, 7, 8, 18, 19]);
    let field = match number {
        1 => return Some(cut(random, &raw)),
        2 => spoil_head(random, &mut raw),
        3 => return Some(with_3(random, &raw)),
        4 => spoil_size(random, &mut raw)?,
        5 => spoil_width(random, &mut raw),
        6 => spoil_value(random, &mut raw),
        7 => spoil_owner(random, &mut raw),
        8 => spoil_formula(random, &mut raw),
        18 => return Some(with_18(random, &mut raw)),
        _ => lists::spoil_comparison(random, &mut raw)?,
    };
    let out = written(&raw);
    Some(Fault { bytes: out.bytes(), number, way: way(field), bits: out.place(field).end as u64 })
}

/// A good file without its end, which sometimes stands inside a list number.
fn cut(random: &Random, raw: &RawRules) -> Fault {
    let mut bytes = file_of(raw);
    let attributes = places(raw).len() as u64;
    let length = match attributes > 0 && random.once_in(3) {
        true => inside_list(random.below(attributes) as usize),
        false => random.below(bytes.len() as u64) as usize,
    };
    bytes.truncate(length);
    Fault { bytes, number: 1, way: "a field cut off", bits: 8 * length as u64 }
}

/// A good file with bits set that should be zero, with bytes after it, or both.
fn with_3(random: &Random, raw: &RawRules) -> Fault {
    let mut out = written(raw);
    let filling = out.place(Field::Filling);
    let field = match random.below(5) {
        0 => Some(Field::Spare),
        1 if !places(raw).is_empty() => {
            let (class, k) = *random.pick(&places(raw));
            Some(Field::Last(class, k))
        }
        2 | 3 if !filling.is_empty() => Some(Field::Filling),
        _ => None,
    };
    let (way, bits) = match field {
        Some(field) => {
            let place = out.place(field);
            let bits = &mut out.bits[place.clone()];
            bits.iter_mut().for_each(|bit| *bit = random.once_in(2));
            bits[random.below(place.len() as u64) as usize] = true;
            (way(field), place.end)
        }
        None if filling.is_empty() => ("bytes after no filling bits", filling.end),
        None => ("bytes after filling bits", filling.end),
    };
    let mut bytes = out.bytes();
    if field.is_none() || random.once_in(3) {
        bytes.extend(vec![*random.pick(&[0, 1, 255]); random.from_to(1, 3) as usize]);
    }
    Fault { bytes, number: 3, way, bits: bits as u64 }
}

/// Two attributes of one list and different sizes; sometimes the last bit of the later one is set, or the file ends after its list number.
fn with_18(random: &Random, raw: &mut RawRules) -> Fault {
    let later = lists::spoil_size(random, raw);
    let (class, k) = lists::first_18(raw);
    let mut out = written(raw);
    if random.once_in(4) {
        let (class, k) = places(raw)[later];
        let last = out.place(Field::Last(class, k)).start;
        out.bits[last] = true;
    }
    let mut bytes = out.bytes();
    if random.once_in(4) {
        bytes.truncate(after_list(later));
    }
    let field = Field::List(class, k);
    Fault { bytes, number: 18, way: way(field), bits: out.place(field).end as u64 }
}

/// Rules in memory with a number changed, perhaps to what no file can hold.
pub fn rules(random: &Random, good: &RawRules) -> RawRules {
    let mut raw = good.clone();
    let byte = *random.pick(&[0, 1, 2, 3, 8, 9, 16, 17, 31, 32, 33, 64, 65, 128, 255]);
    let k = random.below(8) as usize;
    match random.below(17) {
        0 => raw.classes[k % 3].count = byte,
        1 => raw.classes[k % 3].kinds[random.below(3) as usize] = byte,
        2 => raw.classes[k % 3].sizes[random.below(3) as usize] = byte,
        3 => raw.users.count = byte,
        4 => raw.users.values[k] = byte,
        5 => raw.sessions.count = byte,
        6 => raw.sessions.owners[k % 2] = byte,
        7 => raw.sessions.values[k % 2] = byte,
        8 => raw.items.count = byte,
        9 => raw.items.values[k % 3] = byte,
        10 => raw.permissions = byte,
        11 => raw.lengths[k] = byte,
        12 => raw.classes[k % 3].lists[random.below(3) as usize] = byte,
        13 => drop(lists::spoil_size(random, &mut raw)),
        14 => drop(lists::spoil_comparison(random, &mut raw)),
        15 => raw.nodes[k][random.below(4) as usize] = random.word() as u32 >> random.below(20),
        _ => raw.nodes[k][0] = u32::from(byte) * 65536,
    }
    raw
}
