//! How far the library read a rule file, and which field of it got a number. Number and bits are the library's; the field that ends there is named.

use crate::file::{self, Field, Spot};
use crate::library;
use crate::model::{Class, Rules};
use crate::phrase;
use crate::place_messages as messages;

/// The library's number of a field that is cut off, of bits that are set or bytes that follow, and of a class that is too wide.
const CUT: u32 = 1;
const SET: u32 = 3;
const WIDE: u32 = 5;

/// How many bits of a file the library read, and how many bytes the file has.
#[derive(Clone, Copy)]
pub struct Taken {
    pub bits: u64,
    pub bytes: usize,
}

impl Taken {
    /// `264 bits read (33 bytes)`, or how many of the bits.
    pub fn line(self) -> String {
        let all = 8 * self.bytes as u64;
        match self.bits == all {
            true => messages::all_read(self.bits, self.bytes),
            false => messages::some_read(self.bits, all, self.bytes),
        }
    }
}

/// Reads a file by the library: whether it is one, or its number.
pub fn read(file: &[u8]) -> (Result<(), u32>, Taken) {
    let (read, bits) = library::read_bits(file);
    (read, Taken { bits, bytes: file.len() })
}

/// Where the library gave a number after so many bits, in words; none where no field that can get it ends there.
pub fn of(file: &[u8], number: u32, bits: u64) -> Option<String> {
    let (rules, fields) = file::walked(file);
    let (at, end) = (usize::try_from(bits).ok()?, 8 * file.len());
    match number {
        CUT if at == end => cut(&rules, &fields, end),
        SET if at < end => judged(&rules, &fields, SET, at).or_else(|| followed(&fields, at)),
        CUT => None,
        _ => judged(&rules, &fields, number, at),
    }
}

/// The first field that the file's end cuts off.
fn cut(rules: &Rules, fields: &[Field], end: usize) -> Option<String> {
    let field = fields.iter().find(|field| field.to > end)?;
    let words = words(rules, field.spot);
    Some(if field.from < end { messages::ends_within(&words) } else { messages::ends_before(&words) })
}

/// The field that ends here and can get the number.
fn judged(rules: &Rules, fields: &[Field], number: u32, at: usize) -> Option<String> {
    let field = fields.iter().find(|field| field.to == at && gets(rules, field, number))?;
    Some(match field.spot {
        Spot::LastBit(class, _) if number == WIDE => messages::together(class.word()),
        spot => words(rules, spot),
    })
}

/// All fields end here, and more bytes follow.
fn followed(fields: &[Field], at: usize) -> Option<String> {
    let filling = fields.last().filter(|field| field.spot == Spot::Filling && field.to == at)?;
    Some(if filling.from < at { messages::after_filling() } else { messages::after_formulas() }.to_string())
}

/// Whether a number can be given for a field.
fn gets(rules: &Rules, field: &Field, number: u32) -> bool {
    match (number, field.spot) {
        (2, Spot::Count(_)) | (4, Spot::Size(..)) | (18, Spot::ListNumber(..)) => true,
        (SET, Spot::Spare | Spot::LastBit(..) | Spot::Filling) => field.value > 0,
        (WIDE, Spot::LastBit(class, number)) => number + 1 == rules.of(class).len(),
        (6, Spot::Value(..)) => field.from < field.to,
        (7, Spot::User(_)) | (8, Spot::NodeCount(_)) | (8 | 19, Spot::Node(..)) => true,
        _ => false,
    }
}

fn words(rules: &Rules, spot: Spot) -> String {
    match spot {
        Spot::Count(number) => messages::head_count(number).to_string(),
        Spot::Spare => messages::head_spare().to_string(),
        Spot::Kind(class, number) => messages::kind(class.word(), number),
        Spot::Size(class, number) => messages::size(class.word(), number),
        Spot::ListNumber(class, number) => messages::list_number(class.word(), number),
        Spot::LastBit(class, number) => messages::last_bit(class.word(), number),
        Spot::User(session) => messages::session_user(session),
        Spot::Value(Class::User, number, attribute) => messages::user_value(number, attribute),
        Spot::Value(class, number, attribute) => messages::starting_value(class, number, attribute),
        Spot::NodeCount(heading) => messages::node_count(&phrase::heading(rules, heading)),
        Spot::Node(heading, number) => messages::node(&phrase::heading(rules, heading), number),
        Spot::Filling => messages::filling().to_string(),
    }
}
