//! The rules, once as a file gives them and once as they may stand in memory.

use super::value::{decode, Value};

/// The three classes of holders, in the file's order.
pub const USER: usize = 0;
pub const SESSION: usize = 1;
pub const ITEM: usize = 2;

/// The places of the first four formulas; permission p has formula `ALLOW + p`.
pub const OPEN: usize = 0;
pub const CHANGE_SESSION: usize = 1;
pub const MAKE: usize = 2;
pub const CHANGE_ITEM: usize = 3;
pub const ALLOW: usize = 4;

/// One attribute: an atomic one holds a number below its size, a set holds any of the numbers below its size.
#[derive(Clone, Copy, Debug, PartialEq, Eq)]
pub struct Attribute {
    pub set: bool,
    pub size: u32,
    /// The number of its list, 0 for none.
    pub list: u32,
}

impl Attribute {
    /// How many bits a value of this attribute takes: for an atomic one the fewest w with 2^w at least the size.
    pub fn width(&self) -> u32 {
        if self.set {
            return self.size;
        }
        let mut width = 0;
        while (1 << width) < self.size {
            width += 1;
        }
        width
    }
}

/// How many bits the value of one holder takes.
pub fn width(attributes: &[Attribute]) -> u32 {
    attributes.iter().map(Attribute::width).sum()
}

/// Whether an attribute has the size of every earlier one of its list. List 0 is no list.
pub fn size_agrees(earlier: &[Attribute], attribute: &Attribute) -> bool {
    attribute.list == 0 || earlier.iter().all(|other| other.list != attribute.list || other.size == attribute.size)
}

/// One node of a formula.
#[derive(Clone, Copy, Debug, PartialEq, Eq)]
pub struct Node {
    pub operator: u32,
    pub a: u32,
    pub b: u32,
}

/// A starting session.
#[derive(Clone, Copy, Debug, PartialEq, Eq)]
pub struct Owned {
    pub user: u32,
    pub value: u32,
}

/// The rules of a file that reading accepted. Only `read` makes them.
#[derive(Clone, Debug, PartialEq)]
pub struct Rules {
    /// Attributes of users, of sessions and of items.
    pub attributes: [Vec<Attribute>; 3],
    /// Each user's value.
    pub users: Vec<u32>,
    /// Each starting session.
    pub sessions: Vec<Owned>,
    /// Each starting item's value.
    pub items: Vec<u32>,
    /// How many permissions there are.
    pub permissions: u32,
    /// Open session, change session, make item, change item, then one formula per permission.
    pub formulas: Vec<Vec<Node>>,
    /// For each class, at place v, what the value v says of each attribute; nothing if v is not in the lists.
    pub meanings: [Vec<Option<Vec<Value>>>; 3],
}

impl Rules {
    /// What a value of a class says, or nothing if it is not in the lists.
    pub fn meaning(&self, class: usize, value: u64) -> Option<&Vec<Value>> {
        if value >= self.meanings[class].len() as u64 {
            return None;
        }
        self.meanings[class][value as usize].as_ref()
    }

    /// Whether a value of a class is in the lists.
    pub fn has_value(&self, class: usize, value: u64) -> bool {
        self.meaning(class, value).is_some()
    }

    /// All values of a class that are in the lists, in order.
    pub fn values(&self, class: usize) -> Vec<u32> {
        let count = self.meanings[class].len() as u32;
        (0..count).filter(|value| self.has_value(class, u64::from(*value))).collect()
    }
}

/// What every value of a class says, from value 0 on.
pub fn meanings(attributes: &[Attribute]) -> Vec<Option<Vec<Value>>> {
    (0..1u64 << width(attributes)).map(|value| decode(attributes, value)).collect()
}

/// The attributes of one class as they stand in memory.
#[derive(Clone, Copy, Debug)]
pub struct RawClass {
    pub count: u8,
    pub kinds: [u8; 8],
    pub sizes: [u8; 8],
    pub lists: [u8; 8],
}

/// The users as they stand in memory.
#[derive(Clone, Copy, Debug)]
pub struct RawUsers {
    pub count: u8,
    pub values: [u8; 16],
}

/// The starting sessions as they stand in memory.
#[derive(Clone, Copy, Debug)]
pub struct RawSessions {
    pub count: u8,
    pub owners: [u8; 32],
    pub values: [u8; 32],
}

/// The starting items as they stand in memory.
#[derive(Clone, Copy, Debug)]
pub struct RawItems {
    pub count: u8,
    pub values: [u8; 32],
}

/// Rules in memory that perhaps no file can hold: each field is any number that its place can take.
/// A node is operator * 65536 + a * 256 + b. Places that no count covers say nothing.
#[derive(Clone, Debug)]
pub struct RawRules {
    pub classes: [RawClass; 3],
    pub users: RawUsers,
    pub sessions: RawSessions,
    pub items: RawItems,
    pub permissions: u8,
    pub lengths: [u8; 12],
    pub nodes: [[u32; 64]; 12],
}

impl RawRules {
    /// Rules in memory with every field 0.
    pub fn zero() -> RawRules {
        RawRules {
            classes: [RawClass { count: 0, kinds: [0; 8], sizes: [0; 8], lists: [0; 8] }; 3],
            users: RawUsers { count: 0, values: [0; 16] },
            sessions: RawSessions { count: 0, owners: [0; 32], values: [0; 32] },
            items: RawItems { count: 0, values: [0; 32] },
            permissions: 0,
            lengths: [0; 12],
            nodes: [[0; 64]; 12],
        }
    }

    /// The rules of a file as they stand in memory; places that no count covers are 0.
    pub fn of(rules: &Rules) -> RawRules {
        let mut raw = RawRules::zero();
        for (class, attributes) in rules.attributes.iter().enumerate() {
            raw.classes[class].count = attributes.len() as u8;
            for (place, attribute) in attributes.iter().enumerate() {
                raw.classes[class].kinds[place] = attribute.set as u8;
                raw.classes[class].sizes[place] = attribute.size as u8;
                raw.classes[class].lists[place] = attribute.list as u8;
            }
        }
        raw.users.count = rules.users.len() as u8;
        for (place, value) in rules.users.iter().enumerate() {
            raw.users.values[place] = *value as u8;
        }
        raw.sessions.count = rules.sessions.len() as u8;
        for (place, session) in rules.sessions.iter().enumerate() {
            raw.sessions.owners[place] = session.user as u8;
            raw.sessions.values[place] = session.value as u8;
        }
        raw.items.count = rules.items.len() as u8;
        for (place, value) in rules.items.iter().enumerate() {
            raw.items.values[place] = *value as u8;
        }
        raw.permissions = rules.permissions as u8;
        for (place, formula) in rules.formulas.iter().enumerate() {
            raw.lengths[place] = formula.len() as u8;
            for (number, node) in formula.iter().enumerate() {
                raw.nodes[place][number] = node.operator * 65536 + node.a * 256 + node.b;
            }
        }
        raw
    }
}
