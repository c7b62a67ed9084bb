//! Random rules that a file can hold, from a seed.

use crate::second::formula::{class_of, holders_of, judge_node};
use crate::second::formula::{HOLD_CONSTANT, HOLD_ITEM, HOLD_NEW_ITEM, HOLD_NEW_SESSION, HOLD_SESSION};
use crate::second::rules::{width, Attribute, Node, RawRules, ALLOW, CHANGE_ITEM, CHANGE_SESSION};

/// Marsaglia's xorshift generator of 64 bits.
pub struct Random(pub u64);

impl Random {
    fn bits(&mut self) -> u64 {
        self.0 ^= self.0 << 13;
        self.0 ^= self.0 >> 7;
        self.0 ^= self.0 << 17;
        self.0
    }

    /// A number below a bound.
    pub fn below(&mut self, bound: u32) -> u32 {
        ((self.bits() >> 32) % u64::from(bound)) as u32
    }

    /// A number from one to another, both included.
    pub fn between(&mut self, least: u32, most: u32) -> u32 {
        least + self.below(most - least + 1)
    }
}

/// How great random rules can be.
pub struct Bounds {
    pub attributes: u32,
    pub width: u32,
    pub users: u32,
    pub sessions: u32,
    pub items: u32,
    pub permissions: u32,
    pub nodes: u32,
}

/// The sizes of the lists that random attributes may use, each at its number; 0 where there is no list. A third of the
/// rules have none.
fn lists(random: &mut Random) -> [u32; 32] {
    let mut sizes = [0; 32];
    for _ in 0..random.below(3) {
        let number = [1, 31, random.between(1, 31)][random.below(3) as usize];
        sizes[number as usize] = [2, random.between(1, 8), random.between(1, 16)][random.below(3) as usize];
    }
    sizes
}

/// The attributes of a class, each as wide as the width left allows; most are of a list, if one of them fits.
fn class(random: &mut Random, bounds: &Bounds, lists: &[u32; 32]) -> Vec<Attribute> {
    let mut attributes = Vec::new();
    for _ in 0..random.between(0, bounds.attributes) {
        let left = bounds.width - width(&attributes);
        let set = left > 0 && random.below(2) == 1;
        let most = if set { left } else { 1 << left.min(4) };
        let fitting: Vec<u32> = (1..32).filter(|list| (1..=most).contains(&lists[*list as usize])).collect();
        if fitting.is_empty() || random.below(4) == 0 {
            attributes.push(Attribute { set, size: random.between(1, most), list: 0 });
            continue;
        }
        let list = fitting[random.below(fitting.len() as u32) as usize];
        attributes.push(Attribute { set, size: lists[list as usize], list });
    }
    attributes
}

/// A value of these attributes.
fn value(random: &mut Random, attributes: &[Attribute]) -> u8 {
    let mut value = 0;
    for attribute in attributes {
        let codes = if attribute.set { 1 << attribute.size } else { attribute.size };
        value = (value << attribute.width()) + random.below(codes);
    }
    value as u8
}

/// An operand for a formula: mostly an attribute, sometimes a small constant.
fn operand(random: &mut Random, attributes: &[Vec<Attribute>; 3], formula: usize) -> u32 {
    let holders = holders_of(formula);
    let holder = holders[random.below(holders.len() as u32) as usize];
    let count = attributes[class_of(holder)].len() as u32;
    if count == 0 || random.below(4) == 0 {
        let bound = if random.below(4) == 0 { 16 } else { 3 };
        return HOLD_CONSTANT * 32 + random.below(bound);
    }
    holder * 32 + random.below(count)
}

/// A node that may stand at this place.
fn node(random: &mut Random, attributes: &[Vec<Attribute>; 3], formula: usize, place: u32) -> Node {
    loop {
        let operator = random.below(11);
        let (a, b) = match operator {
            0 | 1 => (0, 0),
            2 => (random.below(place.max(1)), 0),
            3 | 4 => (random.below(place.max(1)), random.below(place.max(1))),
            _ => (operand(random, attributes, formula), operand(random, attributes, formula)),
        };
        let node = Node { operator, a, b };
        // Plain true and false are taken seldom, for they make dull rules.
        if judge_node(attributes, formula, place, &node).is_ok() && (operator > 1 || random.below(6) == 0) {
            return node;
        }
    }
}

/// A formula for changes that leads from some values of the first attribute, if it is atomic, to some others. Such
/// formulas make chains of changes that cannot be cut short.
fn leads(random: &mut Random, attributes: &[Vec<Attribute>; 3], formula: usize) -> Option<Vec<Node>> {
    let (old, new) = match formula {
        CHANGE_SESSION => (HOLD_SESSION, HOLD_NEW_SESSION),
        CHANGE_ITEM => (HOLD_ITEM, HOLD_NEW_ITEM),
        _ => return None,
    };
    let first = attributes[class_of(old)].first().filter(|attribute| !attribute.set)?;
    let is = |holder: u32, value: u32| Node { operator: 5, a: holder * 32, b: HOLD_CONSTANT * 32 + value };
    let mut nodes = vec![Node { operator: 0, a: 0, b: 0 }];
    for _ in 0..random.between(1, 4) {
        let last = nodes.len() as u32 - 1;
        nodes.push(is(old, random.below(first.size)));
        nodes.push(is(new, random.below(first.size)));
        nodes.push(Node { operator: 3, a: last + 1, b: last + 2 });
        nodes.push(Node { operator: 4, a: last, b: last + 3 });
    }
    Some(nodes)
}

/// A formula: sometimes leads, else any nodes that fit.
fn formula_nodes(random: &mut Random, attributes: &[Vec<Attribute>; 3], formula: usize, most: u32) -> Vec<Node> {
    let leads = if random.below(3) == 0 { leads(random, attributes, formula) } else { None };
    leads.unwrap_or_else(|| {
        let count = random.between(1, most);
        (0..count).map(|place| node(random, attributes, formula, place)).collect()
    })
}

/// Random rules that a file can hold. Places that no count covers hold anything.
pub fn rules(random: &mut Random, bounds: &Bounds) -> RawRules {
    let mut raw = RawRules::zero();
    raw.users.values.fill(random.below(256) as u8);
    raw.sessions.values.fill(random.below(256) as u8);
    raw.nodes.iter_mut().for_each(|nodes| nodes.fill(random.below(1 << 20)));
    let lists = lists(random);
    let attributes = [0; 3].map(|_| class(random, bounds, &lists));
    for (place, list) in attributes.iter().enumerate() {
        raw.classes[place].count = list.len() as u8;
        for (number, attribute) in list.iter().enumerate() {
            raw.classes[place].kinds[number] = attribute.set as u8;
            raw.classes[place].sizes[number] = attribute.size as u8;
            raw.classes[place].lists[number] = attribute.list as u8;
        }
    }
    raw.users.count = random.between(1, bounds.users) as u8;
    raw.sessions.count = random.between(0, bounds.sessions) as u8;
    raw.items.count = random.between(0, bounds.items) as u8;
    raw.permissions = random.between(1, bounds.permissions) as u8;
    for place in 0..raw.users.count as usize {
        raw.users.values[place] = value(random, &attributes[0]);
    }
    for place in 0..raw.sessions.count as usize {
        raw.sessions.owners[place] = random.below(u32::from(raw.users.count)) as u8;
        raw.sessions.values[place] = value(random, &attributes[1]);
    }
    for place in 0..raw.items.count as usize {
        raw.items.values[place] = value(random, &attributes[2]);
    }
    for formula in 0..ALLOW + raw.permissions as usize {
        let nodes = formula_nodes(random, &attributes, formula, bounds.nodes);
        raw.lengths[formula] = nodes.len() as u8;
        for (place, Node { operator, a, b }) in nodes.into_iter().enumerate() {
            raw.nodes[formula][place] = operator * 65536 + a * 256 + b;
        }
    }
    raw
}

/// A question, mostly about what is there.
pub fn question(random: &mut Random, raw: &RawRules) -> [u8; 3] {
    let who = match random.below(3) {
        0 if raw.sessions.count > 0 => random.below(u32::from(raw.sessions.count)),
        1 => 0x40 + random.below(u32::from(raw.users.count)),
        _ => 0x80,
    };
    let which = match random.below(2) {
        0 if raw.items.count > 0 => random.below(u32::from(raw.items.count)),
        _ => 0x80,
    };
    [who as u8, which as u8, (random.below(u32::from(raw.permissions)) * 16) as u8]
}
