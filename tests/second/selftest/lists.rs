//! Lists with names in files: numbers 18 and 19 in reading and in writing.

use super::files::{formulas, head, number_of, Fields};
use super::random::{question, rules, Bounds, Random};
use super::{bytes_of, Checks, COUNTER};
use crate::second::analyse::analyse;
use crate::second::read::read;
use crate::second::rules::{Attribute, RawRules};
use crate::second::write::file_of;

/// An attribute of a file: kind, size, list number.
type Listed = (u32, u32, u32);

/// The counter file with list 1 for its two sets and list 31 for the items' count: 12 bits each, kind, size, list and
/// last bit: 1 00001 00001 0, the same again, and 0 00010 11111 0.
pub fn counter_with_lists() -> Vec<u8> {
    [&COUNTER[..5], &[0x84, 0x28, 0x42, 0x0B, 0xE8], &COUNTER[10..]].concat()
}

/// An attribute's fields, with its last bit.
fn fields(attribute: Listed, last: u32) -> Fields {
    let (kind, size, list) = attribute;
    vec![(1, kind), (5, size), (5, list), (1, last)]
}

/// A file up to its attributes: one user, one permission, no starting sessions and items.
fn front(classes: [&[Listed]; 3]) -> Fields {
    let count = |class: usize| classes[class].len() as u32;
    let head = head([count(0), count(1), count(2), 1, 0, 0, 1, 0]);
    [head, classes.concat().into_iter().flat_map(|attribute| fields(attribute, 0)).collect()].concat()
}

/// The user's value, all its bits zero.
fn user_value(attributes: &[Listed]) -> Fields {
    attributes.iter().map(|(kind, size, list)| (Attribute { set: *kind == 1, size: *size, list: *list }.width(), 0)).collect()
}

/// The number of a whole file whose formulas are all true but the one at a place.
fn judged(classes: [&[Listed]; 3], place: usize, nodes: &[(u32, u32, u32)]) -> u32 {
    number_of(&[front(classes), user_value(classes[0]), formulas(place, nodes)])
}

/// The number of a file with these attributes and no comparison.
fn sizes(classes: [&[Listed]; 3]) -> u32 {
    judged(classes, 9, &[])
}

pub fn all(checks: &mut Checks) {
    counter(checks);
    pairs_of_places(checks);
    more_than_two(checks);
    before_and_after_18(checks);
    cut_off(checks);
    comparisons(checks);
    before_and_after_19(checks);
    all_operands(checks);
    same_answers(checks);
}

/// The counter file with lists, and its bits by hand.
fn counter(checks: &mut Checks) {
    let bytes = counter_with_lists();
    let rules = read(&bytes).unwrap();
    let lists: Vec<u32> = rules.attributes.concat().iter().map(|attribute| attribute.list).collect();
    checks.same("list numbers of the counter file", lists, vec![1, 1, 31]);
    checks.same("the counter file with lists, written", file_of(&RawRules::of(&rules)), Ok(bytes.clone()));
    checks.holds("rules with other lists are others", rules != read(&COUNTER).unwrap());
    let mut other = bytes.clone();
    // The user's set has list 2: 1 00001 00010 0.
    other[5..7].copy_from_slice(&[0x84, 0x48]);
    checks.same("a session's set is compared with a user's of another list", read(&other).err(), Some(19));
    other = bytes.clone();
    // The items' count has list 1: 0 00010 00001 0; the sets of that list have size 1.
    other[8..10].copy_from_slice(&[0x08, 0x28]);
    checks.same("a size that is not that of its list", read(&other).err(), Some(18));
    other = bytes;
    // The items' count has list 30: 0 00010 11110 0.
    other[8..10].copy_from_slice(&[0x0B, 0xC8]);
    checks.holds("rules differ by a list alone", read(&other).unwrap() != rules);
}

/// Two attributes at all pairs of nine places, of both kinds each, with the same list or not, and the same size or not.
fn pairs_of_places(checks: &mut Checks) {
    for (earlier, later) in (0..9).flat_map(|later| (0..later).map(move |earlier| (earlier, later))) {
        for (kind, other_kind) in [(0, 0), (0, 1), (1, 0), (1, 1)] {
            for (size, other_size) in [(2, 2), (2, 3), (3, 2), (1, 2)] {
                for (list, other_list) in [(0, 0), (0, 5), (5, 0), (5, 5), (1, 1), (31, 31), (1, 31), (16, 17), (16, 16)] {
                    let mut places = [(0, 1, 0); 9];
                    places[earlier] = (kind, size, list);
                    places[later] = (other_kind, other_size, other_list);
                    let refused = list == other_list && list != 0 && size != other_size;
                    let what = format!("{:?} at {earlier}, {:?} at {later}", places[earlier], places[later]);
                    let found = sizes([&places[..3], &places[3..6], &places[6..]]);
                    checks.same(&what, found, if refused { 18 } else { 0 });
                }
            }
        }
    }
}

/// Any earlier attribute of the list counts, not only the last one; all 24 attributes may be of one list.
fn more_than_two(checks: &mut Checks) {
    checks.same("the third one", sizes([&[(0, 2, 5), (1, 2, 5)], &[(0, 3, 5)], &[]]), 18);
    checks.same("another list between", sizes([&[(0, 2, 5)], &[(0, 3, 6)], &[(0, 3, 5)]]), 18);
    checks.same("list 0 between", sizes([&[(0, 2, 5), (0, 3, 0), (0, 3, 5)], &[], &[]]), 18);
    checks.same("sizes of list 0", sizes([&[(0, 2, 0), (0, 3, 0)], &[(1, 2, 0)], &[(0, 16, 0), (1, 4, 0)]]), 0);
    let one_list = [(0, 1, 31); 24];
    checks.same("24 of one list", sizes([&one_list[..8], &one_list[8..16], &one_list[16..]]), 0);
    for place in 0..24 {
        let mut other = one_list;
        other[place].1 = 2;
        let found = sizes([&other[..8], &other[8..16], &other[16..]]);
        checks.same("one of 24 differs", found, 18);
    }
    for list in 0..32 {
        checks.same("a list alone", sizes([&[(0, 3, list)], &[], &[]]), 0);
        let found = sizes([&[], &[(1, 3, list)], &[(0, 4, list)]]);
        checks.same("a set of 3, an atomic of 4", found, if list == 0 { 0 } else { 18 });
    }
}

/// Size, list number, last bit, and then the width of the class.
fn before_and_after_18(checks: &mut Checks) {
    let two = head([2, 1, 0, 1, 0, 0, 1, 0]);
    let first = fields((0, 2, 5), 0);
    let mut after = |what: &str, rest: &[Fields], expected: u32| {
        checks.same(what, number_of(&[two.clone(), first.clone(), rest.concat()]), expected);
    };
    for (kind, size) in [(0, 0), (0, 17), (0, 31), (1, 0), (1, 9)] {
        after("4 before 18 of one attribute", &[fields((kind, size, 5), 0)], 4);
        after("18 before a later 4", &[fields((0, 3, 5), 0), fields((kind, size, 0), 0)], 18);
        after("4 before a later 18", &[fields((kind, size, 0), 0), fields((0, 3, 5), 0)], 4);
    }
    after("18 before the last bit", &[fields((0, 3, 5), 1)], 18);
    after("the last bit of a good one", &[fields((0, 2, 5), 1)], 3);
    after("the last bit of list 0", &[fields((0, 3, 0), 1)], 3);
    after("the last bit before a later 18", &[fields((0, 3, 31), 1), fields((0, 3, 5), 0)], 3);
    after("18 before a later last bit", &[fields((1, 3, 5), 0), fields((0, 3, 1), 1)], 18);
    let wide = |attributes: &[Listed]| sizes([attributes, &[(0, 2, 5)], &[]]);
    checks.same("18 before 5", wide(&[(1, 8, 5), (1, 7, 5)]), 18);
    checks.same("18 in the next class before 5 there", sizes([&[(0, 8, 5)], &[(1, 5, 0), (1, 5, 5)], &[]]), 18);
    checks.same("5 of sets of one list", wide(&[(1, 8, 5), (1, 8, 5)]), 5);
    checks.same("5 before 18 of the next class", wide(&[(1, 8, 5), (1, 8, 0)]), 5);
}

/// A list number that is cut off gives 1, a whole one 18, though nothing follows it.
fn cut_off(checks: &mut Checks) {
    // The third attribute's list number is bits 70 to 74 of the file, the second one's bits 58 to 62.
    let classes: [&[Listed]; 3] = [&[(0, 2, 5)], &[(0, 2, 5)], &[(0, 3, 5)]];
    let bytes = bytes_of(&front(classes));
    for (length, expected) in [(6, 1), (7, 1), (8, 1), (9, 1), (10, 18)] {
        checks.same("the third list number cut off", read(&bytes[..length]).err(), Some(expected));
    }
    let bytes = bytes_of(&front([&[(0, 2, 5)], &[(0, 3, 5)], &[(0, 3, 5)]]));
    for (length, expected) in [(7, 1), (8, 18), (9, 18)] {
        checks.same("the second list number cut off", read(&bytes[..length]).err(), Some(expected));
    }
    let two = head([2, 0, 0, 1, 0, 0, 1, 0]);
    let ends = |list: u32, size: u32| number_of(&[two.clone(), fields((0, 2, 5), 0), vec![(1, 0), (5, size), (5, list)]]);
    checks.same("nothing after a list number whose size differs", ends(5, 3), 18);
    checks.same("nothing after a good list number", ends(5, 2), 1);
    checks.same("nothing after list 0", ends(0, 3), 1);
}

/// Three attributes for each class: an atomic and a set of list 5, and an atomic of list 0. The operands of the user
/// are 0 to 2, of the new session 64 to 66, of the session 32 to 34, of the item 96 to 98 and of the new item 128 to 130.
const THREE: [Listed; 3] = [(0, 2, 5), (1, 2, 5), (0, 3, 0)];

/// Comparisons of list 5 with itself, with list 0 and with constants.
fn comparisons(checks: &mut Checks) {
    let mut is = |what: &str, place: usize, nodes: &[(u32, u32, u32)], expected: u32| {
        checks.same(what, judged([&THREE, &THREE, &THREE], place, nodes), expected);
    };
    for operator in 5..8 {
        is("atomics of one list", 0, &[(operator, 0, 64)], 0);
        is("list 5 and list 0", 0, &[(operator, 0, 66)], 19);
        is("list 0 and list 5", 4, &[(operator, 34, 96)], 19);
        is("list 0 and list 0", 4, &[(operator, 34, 98)], 0);
        is("a constant on the left", 1, &[(operator, 160, 32)], 0);
        is("a constant on the right", 1, &[(operator, 32, 175)], 0);
        is("constants", 2, &[(operator, 175, 160)], 0);
        is("attributes of one holder", 2, &[(operator, 32, 34)], 19);
    }
    is("a member of a set of its list", 3, &[(8, 128, 97)], 0);
    is("a member of a set of another list", 3, &[(8, 130, 97)], 19);
    is("a constant in a set", 3, &[(8, 160, 33)], 0);
    is("an unused node", 0, &[(5, 0, 66), (1, 0, 0)], 19);
    is("an unused node of the last formula", 4, &[(1, 0, 0), (6, 32, 98), (1, 0, 0)], 19);
    let mut long = [(1, 0, 0); 64];
    long[63] = (7, 32, 98);
    is("the last of 64 nodes", 4, &long, 19);
    let sets: [&[Listed]; 3] = [&[(1, 2, 31), (1, 2, 1)], &[(1, 2, 31)], &[(1, 2, 0)]];
    for operator in [9, 10] {
        checks.same("sets of one list", judged(sets, 0, &[(operator, 0, 64)]), 0);
        checks.same("sets of lists 1 and 31", judged(sets, 0, &[(operator, 1, 64)]), 19);
        checks.same("sets of lists 31 and 0", judged(sets, 3, &[(operator, 32, 96)]), 19);
        checks.same("a set before and after", judged(sets, 3, &[(operator, 96, 128)]), 0);
    }
}

/// 6 and 8 beside 19, and where a file ends.
fn before_and_after_19(checks: &mut Checks) {
    let classes: [&[Listed]; 3] = [&THREE, &THREE, &THREE];
    let mut is = |what: &str, place: usize, nodes: &[(u32, u32, u32)], expected: u32| {
        checks.same(what, judged(classes, place, nodes), expected);
    };
    is("8 before 19 at one node, by the kind", 0, &[(5, 66, 1)], 8);
    is("8 before 19 at one node, by the holder", 0, &[(5, 0, 98)], 8);
    is("8 before 19 at one node, by an absent attribute", 0, &[(5, 66, 3)], 8);
    is("19 before 8 of a later node", 0, &[(5, 0, 66), (11, 0, 0)], 19);
    is("8 before 19 of a later node", 0, &[(11, 0, 0), (5, 0, 66)], 8);
    let start = [front(classes), user_value(&THREE)].concat();
    let one = |rest: &[(u32, u32)]| number_of(&[start.clone(), vec![(8, 2), (4, 5), (8, 0), (8, 66)], rest.to_vec()]);
    checks.same("nothing after the node", one(&[]), 19);
    checks.same("19 before the next node, which is bad", one(&[(4, 11), (16, 0)]), 19);
    let next = number_of(&[start.clone(), vec![(8, 1), (4, 6), (8, 66), (8, 0), (8, 65)]]);
    checks.same("19 before the next formula's count", next, 19);
    // The head and nine attributes are 148 bits, the user's value takes 1 + 2 + 2: the node is bits 161 to 180.
    let bytes = bytes_of(&[start.clone(), vec![(8, 1), (4, 5), (8, 0), (8, 66)]].concat());
    checks.same("a node cut off", read(&bytes[..22]).err(), Some(1));
    checks.same("a whole node", read(&bytes[..23]).err(), Some(19));
    let value = number_of(&[front(classes), vec![(1, 0), (2, 0), (2, 3)], formulas(0, &[(5, 0, 66)])]);
    checks.same("6 before 19", value, 6);
    let mut follow = bytes_of(&[start, formulas(4, &[(5, 32, 98)])].concat());
    follow.push(0);
    checks.same("19 before bytes that follow", read(&follow).err(), Some(19));
}

/// Every comparison of every two operands in every formula: 8 where an operand is not one, else 19 by the lists.
fn all_operands(checks: &mut Checks) {
    let classes: [&[Listed]; 3] = [&[(0, 2, 0), (1, 2, 3)], &[(0, 2, 3), (1, 2, 0)], &[(0, 2, 31), (1, 2, 3)]];
    let allowed: [&[u32]; 5] = [&[0, 2], &[0, 1, 2], &[1, 4], &[1, 3, 4], &[1, 3]];
    let known = |formula: usize, operand: u32| -> Option<(u32, Option<u32>)> {
        let (holder, number) = (operand / 32, operand % 32);
        if holder == 5 {
            return Some((0, None));
        }
        let (kind, _, list) = classes[[0, 1, 1, 2, 2][holder as usize]][number as usize];
        allowed[formula].contains(&holder).then_some((kind, Some(list)))
    };
    let operands = [0, 1, 32, 33, 64, 65, 96, 97, 128, 129, 160, 175];
    for formula in 0..5 {
        for (a, b) in operands.iter().flat_map(|a| operands.iter().map(move |b| (*a, *b))) {
            for operator in 5..11 {
                let kinds = if operator < 8 { (0, 0) } else if operator == 8 { (0, 1) } else { (1, 1) };
                let expected = match (known(formula, a), known(formula, b)) {
                    (Some(one), Some(other)) if (one.0, other.0) != kinds => 8,
                    (Some((_, Some(one))), Some((_, Some(other)))) if one != other => 19,
                    (Some(_), Some(_)) => 0,
                    _ => 8,
                };
                let what = format!("{operator} of {a} and {b} in formula {formula}");
                checks.same(&what, judged(classes, formula, &[(operator, a, b)]), expected);
            }
        }
    }
}

/// The verdict of rules with lists is that of the same rules with list 0 throughout.
fn same_answers(checks: &mut Checks) {
    let bounds = Bounds { attributes: 2, width: 3, users: 3, sessions: 2, items: 2, permissions: 2, nodes: 6 };
    let mut random = Random(0x2545_F491_4F6C_DD1D);
    for _ in 0..300 {
        let raw = rules(&mut random, &bounds);
        let asked = question(&mut random, &raw);
        let mut without = raw.clone();
        without.classes.iter_mut().for_each(|class| class.lists = [0; 8]);
        let (listed, plain) = (file_of(&raw).unwrap(), file_of(&without).unwrap());
        checks.same("an answer with lists", analyse(&listed, &asked, 8192), analyse(&plain, &asked, 8192));
    }
}
