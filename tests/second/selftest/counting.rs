//! How many bits reading takes: 8 times the bytes with rules and with 1, else the bits of all fields up to and
//! including the one that was judged.

use super::files::{formulas, head, Fields};
use super::random::{rules, Bounds, Random};
use super::{bytes_of, Checks, COUNTER};
use crate::second::read::read_bits;
use crate::second::write::file_of;

/// An attribute: kind, size, list number, last bit.
fn attribute(kind: u32, size: u32, list: u32, last: u32) -> Fields {
    vec![(1, kind), (5, size), (5, list), (1, last)]
}

/// A node: operator, a and b.
fn node(operator: u32, a: u32, b: u32) -> Fields {
    vec![(4, operator), (8, a), (8, b)]
}

/// The number that reading gives, 0 if it gives rules, and the count.
fn counted(bytes: &[u8]) -> (u32, u64) {
    let (rules, bits) = read_bits(bytes);
    (rules.err().unwrap_or(0), bits)
}

/// Checks the number of a file, and that its count is the width of the parts that are taken. What stands after them
/// does not matter: the file may also end with the byte of the last bit that is taken, or go on with ones.
fn judged(checks: &mut Checks, what: &str, number: u32, taken: &[Fields], rest: &[Fields]) {
    let taken = taken.concat();
    let bits: u32 = taken.iter().map(|(width, _)| *width).sum();
    let filling = (8 - bits % 8) % 8;
    let ones = vec![(filling, (1 << filling) - 1), (8, 255), (8, 255)];
    for rest in [rest.concat(), Vec::new(), ones] {
        let bytes = bytes_of(&[taken.clone(), rest].concat());
        checks.same(what, counted(&bytes), (number, u64::from(bits)));
    }
}

pub fn all(checks: &mut Checks) {
    counter(checks);
    past_the_end(checks);
    heads(checks);
    attributes(checks);
    values(checks);
    formulas_and_nodes(checks);
    ends(checks);
    cuts_of_bent_files(checks, 400);
}

/// The counter file: 40 bits of head, 36 of attributes, 2 of users, five counts of 8 and seven nodes of 20 are 258, and
/// 6 filling bits make 264.
fn counter(checks: &mut Checks) {
    checks.same("the counter file", counted(&COUNTER), (0, 264));
    for length in 0..33 {
        checks.same("the counter file cut off", counted(&COUNTER[..length]), (1, 8 * length as u64));
    }
    for more in [&[0][..], &[255], &[0, 0, 0], &[1, 2, 3, 4]] {
        checks.same("bytes after the filling", counted(&[&COUNTER[..], more].concat()), (3, 264));
    }
    let mut flipped = |what: &str, bits: std::ops::Range<usize>, expected: (u32, u64)| {
        for bit in bits {
            let mut bytes = COUNTER;
            bytes[bit / 8] ^= 128 >> (bit % 8);
            checks.same(what, counted(&bytes), expected);
        }
    };
    flipped("the head's spare", 33..40, (3, 40));
    flipped("the users' list number, which open session's node compares", 46..51, (19, 40 + 36 + 2 + 8 + 20));
    flipped("the first attribute's last bit", 51..52, (3, 52));
    flipped("the sessions' list number", 58..63, (19, 40 + 36 + 2 + 8 + 20));
    flipped("the second attribute's last bit", 63..64, (3, 64));
    flipped("the items' list number", 70..75, (0, 264));
    flipped("the third attribute's last bit", 75..76, (3, 76));
    flipped("the users' values", 76..78, (0, 264));
    flipped("a count of open session above 64", 78..80, (8, 40 + 36 + 2 + 8));
    flipped("the filling bits", 258..264, (3, 264));
}

/// 1: all of the file's bits, wherever it ends.
fn past_the_end(checks: &mut Checks) {
    checks.same("an empty file", counted(&[]), (1, 0));
    checks.same("a head of one byte", counted(&[0x00]), (1, 8));
    let one = head([1, 0, 0, 1, 0, 0, 1, 0]);
    let bytes = bytes_of(&[one, vec![(1, 1), (5, 8), (2, 3)]].concat());
    checks.same("inside a list number", counted(&bytes), (1, 48));
    let wide = [head([1, 0, 0, 1, 0, 0, 1, 0]), attribute(1, 8, 0, 0), vec![(4, 9)]].concat();
    checks.same("inside a value", counted(&bytes_of(&wide)), (1, 56));
    let none = head([0, 0, 0, 1, 0, 0, 1, 0]);
    checks.same("before a count", counted(&bytes_of(&none)), (1, 40));
    let cut = [none.clone(), vec![(8, 1), (4, 15), (12, 0)]].concat();
    checks.same("inside a bad node", counted(&bytes_of(&cut)), (1, 64));
    let four = [none, formulas(9, &[])[..16].to_vec()].concat();
    checks.same("before the permission's formula", counted(&bytes_of(&four)), (1, 152));
    // One session of user 0: 40 + 4 bits, and four of the eight bits of open session's count.
    let session = [head([0, 0, 0, 1, 1, 0, 1, 0]), vec![(4, 0)]].concat();
    checks.same("inside a count", counted(&bytes_of(&session)), (1, 48));
}

/// 2 after the count, 3 after all of the head's spare.
fn heads(checks: &mut Checks) {
    let good = [0, 0, 0, 1, 0, 0, 1, 0];
    for (place, count) in [(0, 9), (1, 15), (2, 12), (3, 0), (3, 17), (3, 31), (4, 33), (5, 63), (6, 0), (6, 9)] {
        let mut counts = good;
        counts[place] = count;
        let mut fields = head(counts);
        let rest = fields.split_off(place + 1);
        judged(checks, "a count of the head", 2, &[fields], &[rest]);
    }
    for spare in [1, 2, 64, 127] {
        let bad = head([0, 0, 0, 1, 0, 0, 1, spare]);
        judged(checks, "the head's spare", 3, &[bad], &[formulas(9, &[])]);
    }
}

/// 4 after 6 bits of the attribute, 18 after 11, 3 after 12, and 5 after the last one of its class.
fn attributes(checks: &mut Checks) {
    let three = head([1, 1, 1, 1, 0, 0, 1, 0]);
    let good = attribute(0, 2, 5, 0);
    for place in 0..3 {
        let before = [three.clone(), vec![good.clone(); place].concat()].concat();
        for (kind, size) in [(0, 0), (0, 17), (1, 9), (1, 31)] {
            let bad = vec![(1, kind), (5, size)];
            judged(checks, "a size", 4, &[before.clone(), bad], &[vec![(5, 5), (1, 1)]]);
        }
        let last = attribute(0, 2, 5, 1);
        judged(checks, "a last bit", 3, &[before.clone(), last], &[vec![good.clone(); 2 - place].concat()]);
        if place > 0 {
            let bad = vec![(1, 1), (5, 3), (5, 5)];
            judged(checks, "a list's size", 18, &[before, bad], &[vec![(1, 1)], good.clone()]);
        }
    }
    // A class of 9 bits: the last of its attributes is judged whole, and the next class is not taken.
    for class in 0..3 {
        let mut counts = [1, 1, 1, 1, 0, 0, 1, 0];
        counts[class] = 3;
        let before = vec![good.clone(); class].concat();
        let wide = [attribute(1, 8, 0, 0), attribute(0, 2, 0, 0), attribute(0, 1, 0, 0)].concat();
        let after = vec![attribute(0, 31, 0, 1); 2].concat();
        judged(checks, "a class", 5, &[head(counts), before, wide], &[after]);
    }
}

/// 6 after the value of the attribute, 7 after the 4 bits of the user.
fn values(checks: &mut Checks) {
    // Two attributes in each class, atomic ones of sizes 3 and 5 in 2 and 3 bits; two users, sessions and items.
    let two = [attribute(0, 3, 0, 0), attribute(0, 5, 0, 0)].concat();
    let front = [head([2, 2, 2, 2, 2, 2, 1, 0]), vec![two; 3].concat()].concat();
    let value = vec![(2, 2), (3, 4)];
    let owned = [vec![(4, 1)], value.clone()].concat();
    let held = [vec![value.clone(); 2], vec![owned; 2], vec![value.clone(); 2]].concat();
    for place in 0..6 {
        let before = [front.clone(), held[..place].concat()].concat();
        let session = place == 2 || place == 3;
        let user = if session { vec![(4, 0)] } else { Vec::new() };
        let first = [user.clone(), vec![(2, 3)]].concat();
        judged(checks, "the first attribute's value", 6, &[before.clone(), first], &[vec![(3, 7)]]);
        let second = [user, vec![(2, 0), (3, 5)]].concat();
        judged(checks, "the second attribute's value", 6, &[before.clone(), second], &[held[place..].concat()]);
        if session {
            judged(checks, "a session's user", 7, &[before, vec![(4, 2)]], &[vec![(2, 3), (3, 7)]]);
        }
    }
    // Without attributes a value takes no bits.
    let bare = head([0, 0, 0, 16, 2, 32, 1, 0]);
    let good = [bare, vec![(4, 15), (4, 3)], formulas(9, &[])].concat();
    checks.same("values of no bits", counted(&bytes_of(&good)), (0, 192));
    let few = head([0, 0, 0, 15, 2, 32, 1, 0]);
    judged(checks, "the second session's user", 7, &[few, vec![(4, 14), (4, 15)]], &[formulas(9, &[])]);
}

/// 8 after a count's 8 bits or a node's 20, 19 after a node's 20.
fn formulas_and_nodes(checks: &mut Checks) {
    // A user atomic of list 1, a session atomic of list 2, an item atomic of list 1, all of size 2.
    let lists = [attribute(0, 2, 1, 0), attribute(0, 2, 2, 0), attribute(0, 2, 1, 0)].concat();
    let front = [head([1, 1, 1, 1, 0, 0, 1, 0]), lists, vec![(1, 1)]].concat();
    // For each formula two operands that it may compare, but for their lists.
    let sides = [(0, 64), (0, 32), (32, 128), (96, 32), (32, 96)];
    for place in 0..5 {
        let before = [front.clone(), formulas(9, &[])[..4 * place].to_vec()].concat();
        let after = formulas(9, &[])[4 * place + 4..].to_vec();
        for count in [0, 65, 255] {
            judged(checks, "a node count", 8, &[before.clone(), vec![(8, count)]], &[node(1, 0, 0), after.clone()]);
        }
        let earlier = [before, vec![(8, 3)], node(1, 0, 0)].concat();
        let more = [node(11, 0, 0), after].concat();
        for (operator, a, b) in [(2, 1, 0), (3, 0, 1), (0, 0, 1), (15, 0, 0), (5, 160, 176)] {
            judged(checks, "a node", 8, &[earlier.clone(), node(operator, a, b)], &[more.clone()]);
        }
        let (a, b) = sides[place];
        judged(checks, "a comparison", 19, &[earlier.clone(), node(6, a, b)], &[more.clone()]);
        let then = [earlier, node(5, 160, 175)].concat();
        judged(checks, "the last of three nodes", 8, &[then, node(5, 192, 160)], &[more]);
    }
    let long = [front, vec![(8, 64)], vec![node(1, 0, 0); 63].concat()].concat();
    judged(checks, "the last of 64 nodes", 19, &[long, node(7, 64, 0)], &[vec![(8, 0)]]);
}

/// 3 after the filling bits, which are taken together; bytes after them are not taken.
fn ends(checks: &mut Checks) {
    let none = head([0, 0, 0, 1, 0, 0, 1, 0]);
    // 40 bits and five formulas of 28: 180.
    let smallest = [none.clone(), formulas(9, &[])].concat();
    checks.same("the smallest file", counted(&bytes_of(&smallest)), (0, 184));
    for filling in 1..16 {
        judged(checks, "filling bits", 3, &[smallest.clone(), vec![(4, filling)]], &[vec![(8, 0)]]);
    }
    for more in 1..4 {
        let follow = [smallest.clone(), vec![(4, 0)], vec![(8, 0); more]].concat();
        checks.same("bytes after filling bits", counted(&bytes_of(&follow)), (3, 184));
    }
    // A second node makes it 200 bits, whole bytes.
    let whole = [none, formulas(4, &[(1, 0, 0), (1, 0, 0)])].concat();
    checks.same("a file without filling bits", counted(&bytes_of(&whole)), (0, 200));
    for byte in [0, 1, 128, 255] {
        let follow = [whole.clone(), vec![(8, byte)]].concat();
        checks.same("a byte after no filling bits", counted(&bytes_of(&follow)), (3, 200));
    }
}

/// A file that was refused is cut everywhere. From the byte of the last counted bit on it has the same number and
/// count; if it is accepted there, the 3 was for bytes that follow. Shorter ones give 1.
fn cuts_of_bent_files(checks: &mut Checks, count: u32) {
    let bounds = Bounds { attributes: 3, width: 5, users: 3, sessions: 2, items: 2, permissions: 2, nodes: 4 };
    let mut random = Random(0x5851_F42D_4C95_7F2D);
    for _ in 0..count {
        let mut bytes = file_of(&rules(&mut random, &bounds)).unwrap();
        checks.same("a good file's bits", counted(&bytes), (0, 8 * bytes.len() as u64));
        if random.below(4) == 0 {
            bytes.push(random.below(256) as u8);
        } else {
            let bit = random.below(bytes.len() as u32 * 8) as usize;
            bytes[bit / 8] ^= 128 >> (bit % 8);
        }
        let (number, bits) = counted(&bytes);
        if number < 2 {
            checks.same("all bits", bits, 8 * bytes.len() as u64);
            continue;
        }
        let end = (bits as usize + 7) / 8;
        for length in 0..end {
            checks.same("a cut before the last counted bit", counted(&bytes[..length]), (1, 8 * length as u64));
        }
        for length in end..bytes.len() {
            let accepted = length == end && number == 3 && counted(&bytes[..end]).0 == 0;
            let expected = if accepted { 0 } else { number };
            checks.same("a cut after the last counted bit", counted(&bytes[..length]), (expected, bits));
        }
    }
}
