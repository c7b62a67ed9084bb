// A rule file as plain tables, for the searches in this folder. The file is trusted: nothing is judged.
use std::io::Read;

pub struct Attribute {
    pub set: bool,
    pub size: u32,
    pub shift: u32,
    pub bits: u32,
}

pub struct Rules {
    pub classes: [Vec<Attribute>; 3],
    pub widths: [u32; 3],
    pub users: Vec<usize>,
    pub sessions: Vec<(usize, usize)>,
    pub items: Vec<usize>,
    pub formulas: Vec<Vec<(u8, u8, u8)>>,
}

pub struct Question {
    pub who_kind: u32,
    pub who: usize,
    pub any_item: bool,
    pub item: usize,
    pub permission: usize,
}

struct Bits<'a> {
    bytes: &'a [u8],
    at: usize,
}

impl Bits<'_> {
    fn take(&mut self, width: u32) -> u32 {
        let mut value = 0;
        for _ in 0..width {
            value = value * 2 + u32::from(self.bytes[self.at / 8] >> (7 - self.at % 8) & 1);
            self.at += 1;
        }
        value
    }
}

fn class(bits: &mut Bits, count: u32) -> (Vec<Attribute>, u32) {
    let mut list = Vec::new();
    for _ in 0..count {
        let set = bits.take(1) == 1;
        let size = bits.take(5);
        bits.take(6);
        let width = if set { size } else { 32 - (size - 1).leading_zeros() };
        list.push(Attribute { set, size, shift: 0, bits: width });
    }
    let mut width = 0;
    for attribute in list.iter_mut().rev() {
        attribute.shift = width;
        width += attribute.bits;
    }
    (list, width)
}

fn rules(bytes: &[u8]) -> Rules {
    let mut bits = Bits { bytes, at: 0 };
    let counts = [bits.take(4), bits.take(4), bits.take(4)];
    let [users, sessions, items, permissions, _spare] =
        [bits.take(5), bits.take(6), bits.take(6), bits.take(4), bits.take(7)];
    let (user, a) = class(&mut bits, counts[0]);
    let (session, b) = class(&mut bits, counts[1]);
    let (item, c) = class(&mut bits, counts[2]);
    Rules {
        classes: [user, session, item],
        widths: [a, b, c],
        users: (0..users).map(|_| bits.take(a) as usize).collect(),
        sessions: (0..sessions).map(|_| (bits.take(4) as usize, bits.take(b) as usize)).collect(),
        items: (0..items).map(|_| bits.take(c) as usize).collect(),
        formulas: (0..4 + permissions)
            .map(|_| {
                let nodes = bits.take(8);
                (0..nodes).map(|_| (bits.take(4) as u8, bits.take(8) as u8, bits.take(8) as u8)).collect()
            })
            .collect(),
    }
}

// Question and rules from standard input.
pub fn input() -> (Question, Rules) {
    let mut bytes = Vec::new();
    std::io::stdin().read_to_end(&mut bytes).expect("standard input");
    let mut bits = Bits { bytes: &bytes, at: 0 };
    let (who_kind, who) = (bits.take(2), bits.take(6) as usize);
    let any_item = bits.take(1) == 1;
    bits.take(1);
    let (item, permission) = (bits.take(6) as usize, bits.take(4) as usize);
    (Question { who_kind, who, any_item, item, permission }, rules(&bytes[3..]))
}

// The class of a holder: user, session as it is and as proposed, item as it is and as proposed.
pub const CLASS: [usize; 5] = [0, 1, 1, 2, 2];

// Whether every attribute's code is in its list.
pub fn listed(class: &[Attribute], value: usize) -> bool {
    class.iter().all(|a| a.set || (value as u32 >> a.shift & ((1 << a.bits) - 1)) < a.size)
}

// The listed values of a class, in order.
pub fn values(rules: &Rules, class: usize) -> Vec<usize> {
    (0..1 << rules.widths[class]).filter(|&v| listed(&rules.classes[class], v)).collect()
}

// An operand's number and the size of its list, for given values of the five holders.
pub fn operand(rules: &Rules, holders: &[usize; 5], code: u8) -> (u32, u32) {
    let (holder, k) = ((code >> 5) as usize, (code & 31) as usize);
    if holder == 5 {
        return (k as u32, 16);
    }
    let a = &rules.classes[CLASS[holder]][k];
    (holders[holder] as u32 >> a.shift & ((1 << a.bits) - 1), a.size)
}
