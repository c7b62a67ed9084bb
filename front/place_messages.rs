//! How far a rule file was read, and where it is refused: each of its fields in words. Things are counted from 1; the name that a listing gives them, which
//! counts from 0, stands in brackets.

use crate::model::Class;
use crate::phrase::unnamed;

pub fn all_read(bits: u64, bytes: usize) -> String {
    format!("{bits} bits read ({})", counted(bytes))
}

pub fn some_read(bits: u64, all: u64, bytes: usize) -> String {
    format!("{bits} of {all} bits read ({})", counted(bytes))
}

fn counted(bytes: usize) -> String {
    format!("{bytes} byte{}", if bytes == 1 { "" } else { "s" })
}

pub fn at_bit(refusal: &str, bits: u64) -> String {
    format!("{refusal} at bit {bits}")
}

pub fn at_place(refusal: &str, bits: u64, place: &str) -> String {
    format!("{refusal} at bit {bits}, {place}")
}

pub fn ends_within(field: &str) -> String {
    format!("the file ends within {field}")
}

pub fn ends_before(field: &str) -> String {
    format!("the file ends before {field}")
}

pub fn after_filling() -> &'static str {
    "bytes after the filling bits"
}

pub fn after_formulas() -> &'static str {
    "bytes after the last formula"
}

// fields

pub fn head_count(number: usize) -> &'static str {
    [
        "user attribute count",
        "session attribute count",
        "item attribute count",
        "user count",
        "starting session count",
        "starting item count",
        "permission count",
    ][number]
}

pub fn head_spare() -> &'static str {
    "the head's spare bits"
}

pub fn kind(class: &str, number: usize) -> String {
    format!("{class} {}, its kind", attribute(number))
}

pub fn size(class: &str, number: usize) -> String {
    format!("{class} {}, its size", attribute(number))
}

pub fn list_number(class: &str, number: usize) -> String {
    format!("{class} {}, its list number", attribute(number))
}

pub fn last_bit(class: &str, number: usize) -> String {
    format!("{class} {}, its last bit", attribute(number))
}

pub fn together(class: &str) -> String {
    format!("the {class} attributes together")
}

pub fn user_value(number: usize, of: usize) -> String {
    format!("user {} (user{number}), {}", number + 1, attribute(of))
}

pub fn session_user(number: usize) -> String {
    format!("{}, its user", starting(Class::Session, number))
}

pub fn starting_value(class: Class, number: usize, of: usize) -> String {
    format!("{}, {}", starting(class, number), attribute(of))
}

pub fn node_count(formula: &str) -> String {
    format!("{formula}, its node count")
}

pub fn node(formula: &str, number: usize) -> String {
    format!("{formula}, node {}", number + 1)
}

pub fn filling() -> &'static str {
    "the filling bits"
}

// parts of fields

fn attribute(number: usize) -> String {
    format!("attribute {} (a{number})", number + 1)
}

fn starting(class: Class, number: usize) -> String {
    format!("starting {} {} ({})", class.word(), number + 1, unnamed(class, number))
}
