//! Rules as a rule file holds them, with the names that a text gives them.

use crate::report::Place;

/// Who holds values, in the file's order.
#[derive(Clone, Copy, Debug, PartialEq, Eq)]
pub enum Class {
    User,
    Session,
    Item,
}

pub const CLASSES: [Class; 3] = [Class::User, Class::Session, Class::Item];

impl Class {
    pub fn word(self) -> &'static str {
        ["user", "session", "item"][self as usize]
    }

    pub fn one(self) -> &'static str {
        ["a user", "a session", "an item"][self as usize]
    }

    /// Those that rules have.
    pub fn plural(self) -> &'static str {
        ["users", "starting sessions", "starting items"][self as usize]
    }
}

/// A list with a name, and the number that it has in the file, 1 to 31. Its values are as those of an attribute.
#[derive(Clone, Debug)]
pub struct List {
    pub name: String,
    pub number: usize,
    pub size: usize,
    pub names: Vec<String>,
    pub place: Place,
}

/// An attribute with the size of its list, and the names of its values, or none where they are written as numbers.
#[derive(Clone, Debug)]
pub struct Attribute {
    pub name: String,
    pub set: bool,
    /// Which of the rules' lists it uses; none if its list is written in place.
    pub list: Option<usize>,
    pub size: usize,
    pub names: Vec<String>,
    pub place: Place,
}

impl Attribute {
    /// How many bits a value takes: a set a bit for each member, a number the fewest that hold all below `size`.
    pub fn width(&self) -> u32 {
        if self.set {
            self.size as u32
        } else {
            (self.size as u32).next_power_of_two().trailing_zeros()
        }
    }
}

/// A user, starting session or starting item. `codes` has a code for each attribute of its class: the value's number, or of a set bit i for member i.
#[derive(Clone, Debug)]
pub struct Holder {
    pub name: String,
    /// The user of a session; 0 for all others.
    pub user: usize,
    pub codes: Vec<u8>,
    pub place: Place,
}

#[derive(Clone, Debug)]
pub struct Permission {
    pub name: String,
    pub place: Place,
}

/// The comparisons, operators 5 to 10 of the file.
#[derive(Clone, Copy, Debug, PartialEq, Eq)]
pub enum Comparison {
    Equal,
    Below,
    AtMost,
    Member,
    Subset,
    ProperSubset,
}

pub const COMPARISONS: [Comparison; 6] =
    [Comparison::Equal, Comparison::Below, Comparison::AtMost, Comparison::Member, Comparison::Subset, Comparison::ProperSubset];

impl Comparison {
    pub fn words(self) -> &'static str {
        ["=", "<", "<=", "in", "subset", "proper subset"][self as usize]
    }

    pub fn operator(self) -> u8 {
        5 + self as u8
    }

    /// Whether the left and the right side are sets.
    pub fn sets(self) -> [bool; 2] {
        match self {
            Comparison::Equal | Comparison::Below | Comparison::AtMost => [false, false],
            Comparison::Member => [false, true],
            Comparison::Subset | Comparison::ProperSubset => [true, true],
        }
    }
}

/// Whose value a side of a comparison is; the number is the file's holder.
#[derive(Clone, Copy, Debug, PartialEq, Eq)]
pub enum Owner {
    User,
    Session,
    NewSession,
    Item,
    NewItem,
}

pub const OWNERS: [Owner; 5] = [Owner::User, Owner::Session, Owner::NewSession, Owner::Item, Owner::NewItem];

impl Owner {
    pub fn words(self) -> &'static str {
        ["user", "session", "new session", "item", "new item"][self as usize]
    }

    pub fn class(self) -> Class {
        [Class::User, Class::Session, Class::Session, Class::Item, Class::Item][self as usize]
    }
}

/// A side of a comparison.
#[derive(Clone, Copy, Debug, PartialEq, Eq)]
pub enum Side {
    Attribute(Owner, usize),
    Constant(u8),
}

/// A node of a formula; numbers are of earlier nodes.
#[derive(Clone, Copy, Debug, PartialEq, Eq)]
pub enum Node {
    False,
    True,
    Not(usize),
    And(usize, usize),
    Or(usize, usize),
    Compare(Comparison, Side, Side),
}

/// A formula: its nodes, the last the answer, and the name of each node that a `let` gave one.
#[derive(Clone, Debug, Default)]
pub struct Formula {
    pub nodes: Vec<Node>,
    pub names: Vec<Option<String>>,
    pub place: Place,
}

/// What a formula decides: `formulas[heading.number()]` of the rules.
#[derive(Clone, Copy, Debug, PartialEq, Eq)]
pub enum Heading {
    OpenSession,
    ChangeSession,
    MakeItem,
    ChangeItem,
    Allow(usize),
}

impl Heading {
    pub fn of(number: usize) -> Heading {
        match number {
            0 => Heading::OpenSession,
            1 => Heading::ChangeSession,
            2 => Heading::MakeItem,
            3 => Heading::ChangeItem,
            n => Heading::Allow(n - 4),
        }
    }

    pub fn number(self) -> usize {
        match self {
            Heading::OpenSession => 0,
            Heading::ChangeSession => 1,
            Heading::MakeItem => 2,
            Heading::ChangeItem => 3,
            Heading::Allow(p) => 4 + p,
        }
    }

    /// Whose values the formula may use.
    pub fn owners(self) -> &'static [Owner] {
        match self {
            Heading::OpenSession => &[Owner::User, Owner::NewSession],
            Heading::ChangeSession => &[Owner::User, Owner::Session, Owner::NewSession],
            Heading::MakeItem => &[Owner::Session, Owner::NewItem],
            Heading::ChangeItem => &[Owner::Session, Owner::Item, Owner::NewItem],
            Heading::Allow(_) => &[Owner::Session, Owner::Item],
        }
    }
}

/// Whom a question asks about, with a number of the file.
#[derive(Clone, Copy, Debug, PartialEq, Eq)]
pub enum Who {
    Session(usize),
    User(usize),
    Anyone,
}

/// A question; no item is any item.
#[derive(Clone, Copy, Debug, PartialEq, Eq)]
pub struct Question {
    pub who: Who,
    pub permission: usize,
    pub item: Option<usize>,
}

impl Question {
    /// One that every rule file can be asked.
    pub const SOME: Question = Question { who: Who::Anyone, permission: 0, item: None };
}

/// An `expect` line of a text.
#[derive(Clone, Debug)]
pub struct Expectation {
    pub question: Question,
    pub never: bool,
    pub place: Place,
}

#[derive(Clone, Debug, Default)]
pub struct Rules {
    pub lists: Vec<List>,
    pub attributes: [Vec<Attribute>; 3],
    pub users: Vec<Holder>,
    pub sessions: Vec<Holder>,
    pub items: Vec<Holder>,
    pub permissions: Vec<Permission>,
    pub formulas: Vec<Formula>,
    pub expectations: Vec<Expectation>,
}

impl Rules {
    pub fn of(&self, class: Class) -> &[Attribute] {
        &self.attributes[class as usize]
    }

    pub fn holders(&self, class: Class) -> &[Holder] {
        match class {
            Class::User => &self.users,
            Class::Session => &self.sessions,
            Class::Item => &self.items,
        }
    }

    /// The attribute that a side names.
    pub fn attribute(&self, side: Side) -> Option<&Attribute> {
        match side {
            Side::Attribute(owner, number) => Some(&self.of(owner.class())[number]),
            Side::Constant(_) => None,
        }
    }

    /// The list number that the file has for an attribute: 0 for a list that is written in place.
    pub fn list_number(&self, attribute: &Attribute) -> usize {
        attribute.list.map_or(0, |list| self.lists[list].number)
    }

    /// A holder's value as the file has it: its attributes side by side, the first in the highest bits, of a set member 0 first.
    pub fn pack(&self, class: Class, codes: &[u8]) -> u64 {
        self.of(class).iter().zip(codes).fold(0, |value, (a, code)| value << a.width() | u64::from(turned(a, *code)))
    }

    /// The codes of a value that the file has.
    pub fn unpack(&self, class: Class, value: u64) -> Vec<u8> {
        let mut codes = Vec::new();
        let mut below = self.of(class).iter().map(Attribute::width).sum::<u32>();
        for a in self.of(class) {
            below -= a.width();
            codes.push(turned(a, (value >> below & ((1 << a.width()) - 1)) as u8));
        }
        codes
    }
}

/// A code as its field, and back: the field of a set has member 0 as its first bit.
fn turned(attribute: &Attribute, code: u8) -> u8 {
    if attribute.set {
        (0..attribute.size).filter(|i| code >> i & 1 == 1).fold(0, |field, i| field | 1 << (attribute.size - 1 - i))
    } else {
        code
    }
}
