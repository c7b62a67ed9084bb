// A plain search: node lists are evaluated one value at a time. Not proved; a measure for bench/run.
mod file;
use file::*;

// Bit i of a set of so many bits: member 0 is the first.
fn member(set: u32, size: u32, i: u32) -> bool {
    i < size && set >> (size - 1 - i) & 1 == 1
}

fn subset(x: u32, m: u32, y: u32, n: u32) -> bool {
    (0..m).all(|i| !member(x, m, i) || member(y, n, i))
}

// What a comparison says of two operands.
fn compare(op: u8, (x, m): (u32, u32), (y, n): (u32, u32)) -> bool {
    match op {
        5 => x == y,
        6 => x < y,
        7 => x <= y,
        8 => member(y, n, x),
        9 => subset(x, m, y, n),
        _ => subset(x, m, y, n) && !subset(y, n, x, m),
    }
}

// What a formula says of the five holders.
fn holds(rules: &Rules, formula: usize, holders: [usize; 5]) -> bool {
    let mut says = [false; 64];
    let nodes = &rules.formulas[formula];
    for (i, &(op, a, b)) in nodes.iter().enumerate() {
        says[i] = match op {
            0 => false,
            1 => true,
            2 => !says[a as usize],
            3 => says[a as usize] && says[b as usize],
            4 => says[a as usize] || says[b as usize],
            _ => compare(op, operand(rules, &holders, a), operand(rules, &holders, b)),
        };
    }
    says[nodes.len() - 1]
}

// What can be had from the starts by steps, in the order found.
fn closure(starts: Vec<usize>, values: &[usize], step: impl Fn(usize, usize) -> bool) -> Vec<usize> {
    let mut seen = [false; 256];
    let mut found = Vec::new();
    for v in starts {
        if !seen[v] {
            seen[v] = true;
            found.push(v);
        }
    }
    let mut next = 0;
    while next < found.len() {
        for &w in values {
            if !seen[w] && step(found[next], w) {
                seen[w] = true;
                found.push(w);
            }
        }
        next += 1;
    }
    found
}

fn main() {
    let (q, rules) = input();
    let (sessions, items) = (values(&rules, 1), values(&rules, 2));
    let change = |u: usize| move |r: &Rules, v: usize, w: usize| holds(r, 1, [r.users[u], v, w, 0, 0]);
    let users: Vec<Vec<usize>> = (0..rules.users.len())
        .map(|u| {
            let starts = sessions.iter().copied().filter(|&v| holds(&rules, 0, [rules.users[u], 0, v, 0, 0]));
            closure(starts.collect(), &sessions, |v, w| change(u)(&rules, v, w))
        })
        .collect();
    if rules.sessions.iter().any(|(u, v)| !users[*u].contains(v)) {
        println!("REFUSED 9");
        return;
    }
    let helpers: Vec<usize> = sessions.iter().copied().filter(|v| users.iter().any(|f| f.contains(v))).collect();
    let mut starts = if q.any_item { rules.items.clone() } else { vec![rules.items[q.item]] };
    if q.any_item {
        let made = |o: &usize| helpers.iter().any(|&v| holds(&rules, 2, [0, v, 0, 0, *o]));
        starts.extend(items.iter().copied().filter(made));
    }
    let found = closure(starts, &items, |o, n| helpers.iter().any(|&v| holds(&rules, 3, [0, v, 0, o, n])));
    let who = match q.who_kind {
        0 => {
            let (u, v) = rules.sessions[q.who];
            closure(vec![v], &sessions, |v, w| change(u)(&rules, v, w))
        }
        1 => users[q.who].clone(),
        _ => helpers,
    };
    let leak = found.iter().any(|&o| who.iter().any(|&v| holds(&rules, 4 + q.permission, [0, v, 0, o, 0])));
    let pairs: usize = users.iter().map(Vec::len).sum();
    println!("{} {} {}", if leak { "LEAK" } else { "SAFE" }, pairs, found.len());
}
