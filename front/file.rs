//! Reading a rule file field by field. Of a file that the library refuses only what stands before the fault counts, and the field that is at fault.

use crate::bits::width;
use crate::listing::listable;
use crate::model::{Attribute, Class, Formula, Heading, Holder, List, Node, Permission, Rules, Side, CLASSES, COMPARISONS, OWNERS};
use crate::phrase::unnamed;
use crate::report::Place;

/// No accepted file has holders with wider values; what follows the attributes of a file that has is not looked at.
const WIDTH: u32 = 8;

/// The widths of the head's counts: attributes of each class, users, starting sessions, starting items, permissions. Spare bits follow them.
const COUNTS: [u32; 7] = [4, 4, 4, 5, 6, 6, 4];

/// A field of a file: the bits before it, the bits up to its end, the number that it holds, and what it is.
pub struct Field {
    pub from: usize,
    pub to: usize,
    pub value: usize,
    pub spot: Spot,
}

/// What a field is. All things are numbered from 0.
#[derive(Clone, Copy, PartialEq, Eq)]
pub enum Spot {
    /// One of the head's counts, by its number among them.
    Count(usize),
    /// The head's spare bits.
    Spare,
    /// The fields of an attribute, by its class and number.
    Kind(Class, usize),
    Size(Class, usize),
    ListNumber(Class, usize),
    LastBit(Class, usize),
    /// The user of a starting session.
    User(usize),
    /// What a holder of a class has for an attribute.
    Value(Class, usize, usize),
    NodeCount(Heading),
    Node(Heading, usize),
    Filling,
}

/// The rules, with names made for them.
pub fn rules(bytes: &[u8]) -> Rules {
    walked(bytes).0
}

/// The rules, and the fields in their order.
pub fn walked(bytes: &[u8]) -> (Rules, Vec<Field>) {
    let mut file = Bits { bytes, at: 0, fields: Vec::new() };
    (read(&mut file), file.fields)
}

fn read(file: &mut Bits) -> Rules {
    let counts: [usize; 7] = std::array::from_fn(|number| file.take(COUNTS[number], Spot::Count(number)));
    file.take(7, Spot::Spare);
    let mut rules = Rules::default();
    for (class, count) in CLASSES.into_iter().zip(counts) {
        for number in 0..count {
            let attribute = attribute(file, class, number, &mut rules.lists);
            rules.attributes[class as usize].push(attribute);
        }
    }
    if rules.attributes.iter().any(|of_class| width(of_class) > WIDTH) {
        return rules;
    }
    let [_, _, _, users, sessions, items, permissions] = counts;
    rules.users = holders(file, &rules, Class::User, users);
    rules.sessions = holders(file, &rules, Class::Session, sessions);
    rules.items = holders(file, &rules, Class::Item, items);
    rules.permissions = (0..permissions).map(|n| Permission { name: format!("permission{n}"), place: Place::default() }).collect();
    rules.formulas = (0..4 + permissions).map(|n| formula(file, Heading::of(n))).collect();
    file.take((8 - file.at % 8) as u32 % 8, Spot::Filling);
    rules
}

/// The next attribute. A list number that none before it has is a new list.
fn attribute(file: &mut Bits, class: Class, number: usize, lists: &mut Vec<List>) -> Attribute {
    let set = file.take(1, Spot::Kind(class, number)) == 1;
    let size = file.take(5, Spot::Size(class, number));
    let list = file.take(5, Spot::ListNumber(class, number));
    file.take(1, Spot::LastBit(class, number));
    if list > 0 && lists.iter().all(|other| other.number != list) {
        lists.push(List { name: format!("list{list}"), number: list, size, names: Vec::new(), place: Place::default() });
    }
    let list = lists.iter().position(|other| other.number == list);
    Attribute { name: format!("a{number}"), set, list, size, names: Vec::new(), place: Place::default() }
}

fn holders(file: &mut Bits, rules: &Rules, class: Class, count: usize) -> Vec<Holder> {
    let holder = |number| {
        let user = if class == Class::Session { file.take(4, Spot::User(number)) } else { 0 };
        let attributes = rules.of(class).iter().enumerate();
        let value = attributes.fold(0, |value, (n, a)| value << a.width() | file.take(a.width(), Spot::Value(class, number, n)));
        let name = if class == Class::User { format!("user{number}") } else { unnamed(class, number) };
        Holder { name, user, codes: rules.unpack(class, value as u64), place: Place::default() }
    };
    (0..count).map(holder).collect()
}

fn formula(file: &mut Bits, heading: Heading) -> Formula {
    let count = file.take(8, Spot::NodeCount(heading));
    let nodes = (0..count).map(|number| node(file.take(20, Spot::Node(heading, number)))).collect();
    listable(Formula { nodes, names: vec![None; count], place: Place::default() })
}

/// The node of an operator (4 bits), a and b (8 bits each).
fn node(bits: usize) -> Node {
    let (operator, a, b) = (bits >> 16, bits >> 8 & 0xFF, bits & 0xFF);
    match operator {
        0 => Node::False,
        1 => Node::True,
        2 => Node::Not(a),
        3 => Node::And(a, b),
        4 => Node::Or(a, b),
        _ => COMPARISONS.get(operator - 5).map_or(Node::False, |comparison| Node::Compare(*comparison, side(a), side(b))),
    }
}

/// A side of a holder (3 bits) and an attribute number or constant (5 bits); the holder after all owners is a constant.
fn side(operand: usize) -> Side {
    let low = operand & 0x1F;
    OWNERS.get(operand >> 5).map_or(Side::Constant(low as u8), |owner| Side::Attribute(*owner, low))
}

/// The bits of a file, how many are read, and as which fields.
struct Bits<'a> {
    bytes: &'a [u8],
    at: usize,
    fields: Vec<Field>,
}

impl Bits<'_> {
    /// The next field's bits as a number, the most significant first; past the end all are zero.
    fn take(&mut self, bits: u32, spot: Spot) -> usize {
        let from = self.at;
        let value = (0..bits).fold(0, |number, _| number << 1 | self.bit());
        self.fields.push(Field { from, to: self.at, value, spot });
        value
    }

    fn bit(&mut self) -> usize {
        let byte = self.bytes.get(self.at / 8).map_or(0, |byte| *byte);
        let below = 7 - self.at % 8;
        self.at += 1;
        usize::from(byte >> below & 1)
    }
}
