//! Faults of list numbers: 18, a size that differs from that of an earlier attribute of the list, and 19, compared lists that differ.

use crate::fields::Field;
use crate::generate::{operands, Operand};
use crate::random::Random;
use crate::second::rules::RawRules;

/// The class and the number of each attribute, in reading order.
pub fn places(raw: &RawRules) -> Vec<(usize, usize)> {
    (0..3).flat_map(|class| (0..raw.classes[class].count as usize).map(move |k| (class, k))).collect()
}

/// A number from 1 to 31 that no attribute has.
fn free(random: &Random, raw: &RawRules) -> u8 {
    loop {
        let list = random.from_to(1, 31) as u8;
        if places(raw).iter().all(|(class, k)| raw.classes[*class].lists[*k] != list) {
            return list;
        }
    }
}

/// Two user attributes of one list and different sizes, in place of all user attributes.
fn two_users(random: &Random, raw: &mut RawRules) {
    let class = &mut raw.classes[0];
    class.count = 2;
    class.kinds[..2].fill(0);
    class.sizes[..2].copy_from_slice(if random.once_in(2) { &[2, 3] } else { &[3, 2] });
    class.lists[..2].fill(random.from_to(1, 31) as u8);
}

/// Gives two attributes one list and different sizes, and says which one in reading order the later of them is. A size only gets smaller, so that
/// no class gets too wide; where there are no two attributes, or both have size 1, others take their place.
pub fn spoil_size(random: &Random, raw: &mut RawRules) -> usize {
    let places = places(raw);
    if places.len() < 2 {
        two_users(random, raw);
        return 1;
    }
    let later = random.from_to(1, places.len() as u64 - 1) as usize;
    let earlier = random.below(later as u64) as usize;
    let ((c, k), (d, l)) = (places[earlier], places[later]);
    let (size, other) = (raw.classes[c].sizes[k], raw.classes[d].sizes[l]);
    if (size, other) == (1, 1) {
        two_users(random, raw);
        return 1;
    }
    if raw.classes[d].lists[l] == 0 {
        raw.classes[d].lists[l] = *random.pick(&[1, 31, random.from_to(1, 31) as u8]);
    }
    raw.classes[c].lists[k] = raw.classes[d].lists[l];
    if size == other {
        let smaller = random.from_to(1, u64::from(size) - 1) as u8;
        let (class, place) = if random.once_in(2) { (c, k) } else { (d, l) };
        raw.classes[class].sizes[place] = smaller;
    }
    later
}

/// The first attribute in reading order whose size differs from that of an earlier one of its list.
pub fn first_18(raw: &RawRules) -> (usize, usize) {
    let places = places(raw);
    let list = |(class, k): (usize, usize)| raw.classes[class].lists[k];
    let size = |(class, k): (usize, usize)| raw.classes[class].sizes[k];
    let differ = |one, other| list(one) != 0 && list(one) == list(other) && size(one) != size(other);
    let later = (0..places.len()).find(|later| places[..*later].iter().any(|earlier| differ(*earlier, places[*later])));
    places[later.expect("two attributes of one list and different sizes")]
}

/// The attributes that a node compares, if it compares two different ones.
fn compared(operands: &[Operand], node: u32) -> Option<(Operand, Operand)> {
    let find = |code: u32| operands.iter().find(|one| one.code == code).copied();
    let (a, b) = (find(node / 256 % 256)?, find(node % 256)?);
    ((5..=10).contains(&(node / 65536)) && (a.class, a.place) != (b.class, b.place)).then_some((a, b))
}

/// Gives an attribute another list, 0 or one that no attribute has.
fn move_list(random: &Random, raw: &mut RawRules, one: &Operand) {
    let list = if one.attribute.list != 0 && random.once_in(2) { 0 } else { free(random, raw) };
    raw.classes[one.class].lists[one.place] = list;
}

/// Changes the list of an attribute that a formula compares with another one; false if it compares none.
fn spoil_compared(random: &Random, raw: &mut RawRules, f: usize) -> bool {
    let operands = operands(raw, f);
    let nodes = &raw.nodes[f][..raw.lengths[f] as usize];
    let pairs: Vec<(Operand, Operand)> = nodes.iter().filter_map(|node| compared(&operands, *node)).collect();
    if pairs.is_empty() {
        return false;
    }
    let (a, b) = *random.pick(&pairs);
    move_list(random, raw, if random.once_in(2) { &a } else { &b });
    true
}

/// Puts a comparison of two attributes of different lists into a formula; false if it can't look at two attributes.
fn spoil_node(random: &Random, raw: &mut RawRules, f: usize) -> bool {
    let operands = operands(raw, f);
    let pairs: Vec<(Operand, Operand)> = operands
        .iter()
        .flat_map(|a| operands.iter().map(move |b| (*a, *b)))
        .filter(|(a, b)| (a.class, a.place) != (b.class, b.place) && (!a.attribute.set || b.attribute.set))
        .collect();
    if pairs.is_empty() {
        return false;
    }
    let (a, b) = *random.pick(&pairs);
    if a.attribute.list == b.attribute.list {
        move_list(random, raw, if random.once_in(2) { &a } else { &b });
    }
    let operator = match (a.attribute.set, b.attribute.set) {
        (false, false) => random.from_to(5, 7) as u32,
        (false, true) => 8,
        _ => random.from_to(9, 10) as u32,
    };
    let place = random.below(u64::from(raw.lengths[f])) as usize;
    raw.nodes[f][place] = operator * 65536 + a.code * 256 + b.code;
    if random.once_in(4) {
        // A later fault, which does not count.
        let after = &mut raw.nodes[f][place + 1..];
        after.iter_mut().for_each(|node| *node = 11 * 65536);
    }
    true
}

/// The first node in reading order that compares attributes of different lists.
fn first_19(raw: &RawRules) -> Field {
    let of_formula = |f: usize| {
        let operands = operands(raw, f);
        let differ = |node: &u32| compared(&operands, *node).map_or(false, |(a, b)| a.attribute.list != b.attribute.list);
        let place = raw.nodes[f][..raw.lengths[f] as usize].iter().position(differ);
        place.map(|place| Field::Node(f, place))
    };
    (0..4 + raw.permissions as usize).find_map(of_formula).expect("a node that compares different lists")
}

/// Makes some formula compare two attributes of different lists; says where, or nothing where nothing came of it.
pub fn spoil_comparison(random: &Random, raw: &mut RawRules) -> Option<Field> {
    for _ in 0..4 {
        let f = random.below(4 + u64::from(raw.permissions)) as usize;
        if random.once_in(2) && spoil_compared(random, raw, f) || spoil_node(random, raw, f) {
            return Some(first_19(raw));
        }
    }
    None
}

/// A node that gets 8 whatever the lists of its two attributes, which mostly differ; nothing if the formula looks at none.
pub fn wrong_kinds(random: &Random, raw: &RawRules, f: usize) -> Option<u32> {
    let operands = operands(raw, f);
    if operands.is_empty() {
        return None;
    }
    let (a, b) = (random.pick(&operands), random.pick(&operands));
    let operator = if a.attribute.set || b.attribute.set { random.from_to(5, 7) } else { random.from_to(8, 10) };
    Some(operator as u32 * 65536 + a.code * 256 + b.code)
}

/// How many bytes end right after the list number of an attribute, up to the filling of the last byte.
pub fn after_list(place: usize) -> usize {
    (40 + 12 * place + 11 + 7) / 8
}

/// How many bytes end inside a list number: after two of the five bits of an attribute's, for every other attribute in reading order.
pub fn inside_list(place: usize) -> usize {
    (40 + 12 * (place / 2 * 2) + 8) / 8
}
