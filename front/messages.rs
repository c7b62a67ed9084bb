//! What is wrong in a text, and what would be right. Each message is said in one place.

pub use crate::formula_messages::*;
pub use crate::list_messages::*;

// words

pub fn should_stand(wanted: &str, found: &str) -> String {
    format!("{wanted} should stand here, not `{found}`")
}

pub fn should_follow(wanted: &str, last: &str) -> String {
    format!("{wanted} should follow `{last}`")
}

pub fn text_ends(wanted: &str, last: &str) -> String {
    format!("{wanted} should follow `{last}`, but the text ends")
}

pub fn no_declaration(word: &str) -> String {
    format!("no declaration begins with `{word}`")
}

pub fn declarations() -> &'static str {
    "a declaration begins with `list`, `user`, `session`, `item`, `permission`, `open`, `change`, `make`, `allow` or `expect`"
}

pub fn means_nothing(sign: &str) -> String {
    format!("`{sign}` means nothing here")
}

pub fn instead(way: &str) -> String {
    format!("write `{way}`")
}

pub fn no_separator() -> &'static str {
    "a comma stands between values, nothing between declarations"
}

pub fn comment() -> &'static str {
    "a comment begins with `#`"
}

pub fn braces() -> &'static str {
    "a list or set stands in braces: `{bank, customers}`"
}

pub fn other_characters() -> &'static str {
    "a name has letters, digits and `_`; with any other character it stands in double quotes: `\"line 47-11\"`"
}

pub fn unclosed() -> &'static str {
    "this quote is not closed"
}

pub fn empty_name() -> &'static str {
    "there is no name between these quotes"
}

pub fn unshown() -> &'static str {
    "this is no name: it is a number, too long, or has a character or a blank that is not seen"
}

pub fn hidden(code: u32) -> String {
    format!("a hidden character stands here: U+{code:04X}")
}

pub fn nothing_hidden() -> &'static str {
    "a text has no hidden characters but tabs and line ends (LF, or CR LF), not even in comments"
}

pub fn quotes() -> &'static str {
    "a name in quotes has 1 to 64 characters, is no number, has blanks only one at a time between others, and ends on its line: `\"mark agreed\"`"
}

pub fn neither(word: &str) -> String {
    format!("`{word}` is neither a number nor a name")
}

pub fn begins_with_letter(word: &str) -> String {
    format!("a name that begins with a digit stands in quotes: `\"{word}\"`")
}

pub fn reserved(word: &str) -> String {
    format!("`{word}` is a word of the language, and no name")
}

pub fn quoted_only(word: &str, class: &str) -> String {
    format!("`{word}` names no {class} without quotes")
}

pub fn in_quotes(word: &str) -> String {
    format!("as a name it stands in quotes: `\"{word}\"`")
}

// names, and what is missing

pub fn already(what: &str, name: &str) -> String {
    format!("there is already {what} `{name}`")
}

pub fn number_of(name: &str, class: &str, number: usize) -> String {
    format!("`{name}` is what {class} number {number} is called")
}

pub fn its_number(class: &str, number: usize) -> String {
    format!("this is {class} number {number}; give it another name, or none")
}

pub fn first_is(line: usize) -> String {
    format!("the first is in line {line}")
}

pub fn none_so_far(what: &str, name: &str) -> String {
    format!("there is no {what} `{name}` so far")
}

pub fn comes_later(line: usize) -> String {
    format!("it is declared in line {line}, and has to be declared before this")
}

pub fn declare_first(what: &str, name: &str) -> String {
    format!("declare it before this: `{what} {name}`")
}

pub fn so_far(what: &str, names: &str) -> String {
    format!("the {what}s so far are {names}")
}

pub fn too_many(most: usize, what: &str) -> String {
    format!("there are at most {most} {what}")
}

pub fn one_too_many() -> &'static str {
    "this is one too many"
}

pub fn none(what: &str) -> String {
    format!("there is no {what}")
}

pub fn at_least_one(what: &str, most: usize) -> String {
    format!("there are 1 to {most} {what}s: write `{what} NAME`")
}

pub fn no_formula(heading: &str) -> String {
    format!("there is no formula `{heading}`")
}

pub fn a_formula(heading: &str) -> String {
    format!("write `{heading}: false` if this is never allowed")
}

// attributes, holders and permissions

pub fn permission_form() -> &'static str {
    "write `permission NAME`, a declaration for each"
}

pub fn attribute_form() -> &'static str {
    "write `user attribute NAME: one of LIST` or `one of {VALUE, VALUE}`, and `set of` for a set; likewise for `session` and `item`"
}

pub fn late_attribute(class: &str) -> String {
    format!("an attribute of {class}s stands before the first {class}")
}

pub fn too_wide(class: &str, width: u32) -> String {
    format!("the values of one {class} take {width} bits now, more than 8")
}

pub fn widths(widths: &str) -> String {
    format!("{widths}: a set takes a bit for each value, `one of` 0 bits for 1 value, 1 for 2, 2 for up to 4, 3 for up to 8, 4 for up to 16")
}

pub fn user_form() -> &'static str {
    "write `user NAME: ATTRIBUTE = VALUE, ATTRIBUTE = {VALUE, VALUE}`"
}

pub fn session_form() -> &'static str {
    "write `session NAME of USER: ATTRIBUTE = VALUE, ATTRIBUTE = {VALUE, VALUE}`; the name may be left out"
}

pub fn item_form() -> &'static str {
    "write `item NAME: ATTRIBUTE = VALUE, ATTRIBUTE = {VALUE, VALUE}`; the name may be left out"
}

pub fn no_attribute(holder: &str, name: &str) -> String {
    format!("{holder} has no attribute `{name}`")
}

pub fn attributes_of(holder: &str, names: &str) -> String {
    format!("{holder} has {names}")
}

pub fn no_attributes(holder: &str) -> String {
    format!("{holder} has no attributes so far")
}

pub fn no_colon(holder: &str) -> String {
    format!("{holder} has no attributes so far; leave the colon out")
}

pub fn are_not_given(names: &str) -> String {
    format!("{names} are not given")
}

pub fn holds_one(attribute: &str) -> String {
    format!("`{attribute}` holds one value, not a set")
}

pub fn without_braces() -> &'static str {
    "write one value, without braces"
}

pub fn holds_set(attribute: &str) -> String {
    format!("`{attribute}` holds a set")
}
