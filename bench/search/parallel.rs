// A bit-parallel search: a node list is evaluated for 64 proposed values at once, one bit a value. Not proved; a measure for bench/run.
mod file;
use file::*;

type Lanes = [u64; 4];

const PLANES: [u64; 6] = [
    0xAAAA_AAAA_AAAA_AAAA,
    0xCCCC_CCCC_CCCC_CCCC,
    0xF0F0_F0F0_F0F0_F0F0,
    0xFF00_FF00_FF00_FF00,
    0xFFFF_0000_FFFF_0000,
    0xFFFF_FFFF_0000_0000,
];

fn whole(b: bool) -> u64 {
    if b { !0 } else { 0 }
}

// Bit k of every lane's number, in the word w.
fn plane(k: u32, w: usize) -> u64 {
    if k < 6 { PLANES[k as usize] } else { whole(w >> (k - 6) & 1 == 1) }
}

// An operand: one number in all lanes, or a field of the lane's number.
struct Operand {
    field: Option<u32>,
    bits: u32,
    number: u32,
    size: u32,
}

fn operand_of(rules: &Rules, holders: &[usize; 5], lane: usize, code: u8) -> Operand {
    let holder = (code >> 5) as usize;
    if holder == lane {
        let a = &rules.classes[CLASS[holder]][(code & 31) as usize];
        return Operand { field: Some(a.shift), bits: a.bits, number: 0, size: a.size };
    }
    let (number, size) = operand(rules, holders, code);
    Operand { field: None, bits: 32 - number.leading_zeros(), number, size }
}

// Bit k of the operand.
fn bit(o: &Operand, k: u32, w: usize) -> u64 {
    match o.field {
        Some(shift) if k < o.bits => plane(shift + k, w),
        Some(_) => 0,
        None => whole(k < 32 && o.number >> k & 1 == 1),
    }
}

fn member_at(o: &Operand, i: u32, w: usize) -> u64 {
    if i < o.size { bit(o, o.size - 1 - i, w) } else { 0 }
}

fn equal(x: &Operand, y: &Operand, w: usize) -> u64 {
    (0..x.bits.max(y.bits)).fold(!0, |r, k| r & !(bit(x, k, w) ^ bit(y, k, w)))
}

fn below(x: &Operand, y: &Operand, w: usize, least: bool) -> u64 {
    (0..x.bits.max(y.bits)).fold(whole(least), |r, k| {
        let (a, b) = (bit(x, k, w), bit(y, k, w));
        (!a & b) | (!(a ^ b) & r)
    })
}

fn within(x: &Operand, y: &Operand, w: usize) -> u64 {
    (0..x.size).fold(!0, |r, i| r & (!member_at(x, i, w) | member_at(y, i, w)))
}

fn contains(x: &Operand, y: &Operand, w: usize) -> u64 {
    (0..y.size).fold(0, |r, i| {
        let number = Operand { field: None, bits: 32 - i.leading_zeros(), number: i, size: 16 };
        r | (equal(x, &number, w) & member_at(y, i, w))
    })
}

// The proposed values (at the holder `lane`) of which the formula is true.
fn holds(rules: &Rules, formula: usize, holders: [usize; 5], lane: usize) -> Lanes {
    let nodes = &rules.formulas[formula];
    let width = rules.widths[CLASS[lane]];
    let mut result = [0; 4];
    for (w, word) in result.iter_mut().enumerate().take(if width > 6 { 1 << (width - 6) } else { 1 }) {
        let mut says = [0u64; 64];
        for (i, &(op, a, b)) in nodes.iter().enumerate() {
            let (n, m) = (a as usize, b as usize);
            says[i] = match op {
                0 => 0,
                1 => !0,
                2 => !says[n],
                3 => says[n] & says[m],
                4 => says[n] | says[m],
                _ => {
                    let x = operand_of(rules, &holders, lane, a);
                    let y = operand_of(rules, &holders, lane, b);
                    match op {
                        5 => equal(&x, &y, w),
                        6 => below(&x, &y, w, false),
                        7 => below(&x, &y, w, true),
                        8 => contains(&x, &y, w),
                        9 => within(&x, &y, w),
                        _ => within(&x, &y, w) & !within(&y, &x, w),
                    }
                }
            };
        }
        *word = says[nodes.len() - 1];
    }
    result
}

fn lanes_of(values: &[usize]) -> Lanes {
    let mut r = [0; 4];
    values.iter().for_each(|v| r[v / 64] |= 1 << (v % 64));
    r
}

fn and(x: Lanes, y: Lanes) -> Lanes {
    [x[0] & y[0], x[1] & y[1], x[2] & y[2], x[3] & y[3]]
}

fn minus(x: Lanes, y: Lanes) -> Lanes {
    [x[0] & !y[0], x[1] & !y[1], x[2] & !y[2], x[3] & !y[3]]
}

fn has(x: Lanes, v: usize) -> bool {
    x[v / 64] >> (v % 64) & 1 == 1
}

// What can be had from the starts by steps: `step` says what comes from a value, of those that are left.
fn closure(starts: Lanes, all: Lanes, step: impl Fn(usize, Lanes) -> Lanes) -> Lanes {
    let mut seen = starts;
    let mut open = starts;
    while open != [0; 4] {
        let v = (0..256).find(|&v| has(open, v)).unwrap_or(0);
        open[v / 64] &= !(1 << (v % 64));
        let fresh = minus(step(v, minus(all, seen)), seen);
        (0..4).for_each(|i| {
            seen[i] |= fresh[i];
            open[i] |= fresh[i];
        });
    }
    seen
}

// What some helper may change an item with value o to, of the values that are left; from the narrower side.
fn changed(rules: &Rules, helpers: Lanes, o: usize, left: Lanes) -> Lanes {
    let mut r = [0; 4];
    if count(helpers) <= count(left) {
        for v in (0..256).filter(|&v| has(helpers, v)) {
            let row = and(holds(rules, 3, [0, v, 0, o, 0], 4), left);
            (0..4).for_each(|i| r[i] |= row[i]);
        }
        return r;
    }
    for n in (0..256).filter(|&n| has(left, n)) {
        if and(holds(rules, 3, [0, 0, 0, o, n], 1), helpers) != [0; 4] {
            r[n / 64] |= 1 << (n % 64);
        }
    }
    r
}

fn count(x: Lanes) -> u32 {
    x.iter().map(|w| w.count_ones()).sum()
}

fn main() {
    let (q, rules) = input();
    let (sessions, items) = (lanes_of(&values(&rules, 1)), lanes_of(&values(&rules, 2)));
    let change = |u: usize, v: usize, left: Lanes| match left {
        [0, 0, 0, 0] => left,
        _ => and(holds(&rules, 1, [rules.users[u], v, 0, 0, 0], 2), sessions),
    };
    let users: Vec<Lanes> = (0..rules.users.len())
        .map(|u| {
            let starts = and(holds(&rules, 0, [rules.users[u], 0, 0, 0, 0], 2), sessions);
            closure(starts, sessions, |v, left| change(u, v, left))
        })
        .collect();
    if rules.sessions.iter().any(|&(u, v)| !has(users[u], v)) {
        println!("REFUSED 9");
        return;
    }
    let mut helpers = [0; 4];
    users.iter().for_each(|u| (0..4).for_each(|i| helpers[i] |= u[i]));
    let mut starts = lanes_of(&if q.any_item { rules.items.clone() } else { vec![rules.items[q.item]] });
    if q.any_item {
        for n in (0..256).filter(|&n| has(items, n)) {
            if and(holds(&rules, 2, [0, 0, 0, 0, n], 1), helpers) != [0; 4] {
                starts[n / 64] |= 1 << (n % 64);
            }
        }
    }
    let found = closure(starts, items, |o, left| changed(&rules, helpers, o, left));
    let who = match q.who_kind {
        0 => {
            let (u, v) = rules.sessions[q.who];
            closure(lanes_of(&[v]), sessions, |v, left| change(u, v, left))
        }
        1 => users[q.who],
        _ => helpers,
    };
    let p = 4 + q.permission;
    let leak = (0..256).any(|o| has(found, o) && and(holds(&rules, p, [0, 0, 0, o, 0], 1), who) != [0; 4]);
    let pairs: u32 = users.iter().map(|&u| count(u)).sum();
    println!("{} {} {}", if leak { "LEAK" } else { "SAFE" }, pairs, count(found));
}
