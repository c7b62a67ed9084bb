//! What is wrong with a command, a question or a step, and what would be right. Each message is said in one place.

use crate::model::{Attribute, Class};
use crate::names::listed;

// the command line

pub fn no_command(word: &str) -> String {
    format!("there is no command `{word}`")
}

pub fn no_option(word: &str) -> String {
    format!("there is no option `{word}`")
}

pub fn option_of_others(command: &str, option: &str) -> String {
    format!("`rules {command}` has no option `{option}`")
}

pub fn option_wants(option: &str) -> String {
    format!("`{option}` needs a word after it")
}

pub fn option_takes_none(option: &str) -> String {
    format!("`{option}` takes no value")
}

pub fn no_colour_choice(word: &str) -> String {
    format!("`{word}` is no choice of colour")
}

pub fn colour_choices() -> String {
    "the choices are auto, always, never".to_string()
}

pub fn usage_of(command: &str) -> String {
    format!("`rules {command}` is not used like this")
}

pub fn see_help() -> String {
    "`rules help` lists the commands".to_string()
}

pub fn see_help_of(command: &str) -> String {
    format!("see `rules help {command}`")
}

pub fn meant(name: &str) -> String {
    format!("did you mean `{name}`?")
}

pub fn did_you_mean(help: &str, name: &str) -> String {
    format!("{help}; did you mean `{name}`?")
}

pub fn both_from_input() -> String {
    "only one of the two can be standard input".to_string()
}

pub fn one_question() -> String {
    "`rules explain` takes one question; `rules ask RULES -` takes many".to_string()
}

pub fn two_questions() -> String {
    "the question is given twice: in words, and by `--question`".to_string()
}

pub fn not_three_bytes(word: &str) -> String {
    format!("`{word}` is not a question of three bytes; six hexadecimal digits are needed, such as 418000")
}

// files

pub fn unreadable(name: &str, why: &str) -> String {
    format!("cannot read {name}: {why}")
}

pub fn too_long(name: &str, bytes: u64) -> String {
    format!("{name} has more than {bytes} bytes, more than rules, questions or steps need")
}

pub fn unwritable(name: &str, why: &str) -> String {
    format!("cannot write {name}: {why}")
}

pub fn is_a_file(name: &str) -> String {
    format!("{name} is a rule file already; `rules list` makes a text of it")
}

pub fn is_a_text(name: &str) -> String {
    format!("{name} is a text, not a rule file; `rules assemble` makes a rule file of it")
}

pub fn bytes_on_a_terminal() -> String {
    "a rule file is not text: name a file with `-o FILE`, or redirect the output".to_string()
}

pub fn own_input(name: &str) -> String {
    format!("{name} is what is read; name another file after `-o`")
}

pub fn no_questions() -> String {
    "standard input has no question".to_string()
}

pub fn names_for_a_text(name: &str) -> String {
    format!("{name} is a text and has names of its own; `--names` is for a rule file")
}

pub fn names_of_others(text: &str, file: &str) -> String {
    format!("{text} assembles to other bytes, so its names are not those of {file}")
}

pub fn input_of_rights() -> String {
    "its first three bytes may be a question: this is input for bin/rights".to_string()
}

pub fn not_utf8_text(name: &str) -> String {
    format!("{name} is not UTF-8 text")
}

pub fn bad_argument(word: &str) -> String {
    format!("`{word}` is not UTF-8")
}

pub fn not_utf8() -> String {
    "if this is a text: it is not in UTF-8; save it as UTF-8".to_string()
}

pub fn cannot_be(session: &str, user: &str, values: &str) -> String {
    format!("{session}: {user} cannot bring a session to {values} by these rules")
}

// questions

pub fn question_form() -> String {
    "a question is WHO PERMISSION [on ITEM], such as: anna agree on line_4711".to_string()
}

pub fn question_goes_on(word: &str) -> String {
    format!("the question should end before {word}")
}

pub fn no_who(word: &str) -> String {
    format!("whom the question is about should stand here, not {word}")
}

pub fn two_classes(name: &str) -> String {
    format!("`{name}` is the name of a user and of a session")
}

pub fn class_word(name: &str) -> String {
    format!("write `user {name}` or `session {name}`")
}

pub fn is_a_word(name: &str) -> String {
    format!("`{name}` is a word of questions")
}

pub fn bare_number(number: u64) -> String {
    format!("{number} is a number, and needs its class word")
}

pub fn item_word(name: &str) -> String {
    format!("write `any item`, or `item {name}` for the one that is called so")
}

pub fn no_such(class: &str, name: &str) -> String {
    format!("there is no {class} `{name}`")
}

pub fn no_one_of(class: Class, word: &str) -> String {
    format!("the name of one of the {} should stand here, not {word}", class.plural())
}

pub fn none_of(class: Class) -> String {
    format!("these rules have no {}", class.plural())
}

pub fn those_are(class: Class, names: &str) -> String {
    format!("the {} are {names}", class.plural())
}

pub fn no_permission(name: &str) -> String {
    format!("there is no permission `{name}`")
}

pub fn no_permission_word(word: &str) -> String {
    format!("a permission should stand here, not {word}")
}

pub fn permissions_are(names: &str) -> String {
    format!("the permissions are {names}")
}

// steps

pub fn step_forms() -> String {
    "a user opens, closes or changes a session; a session makes or changes an item, or uses a permission on it; see `rules help replay`".to_string()
}

pub fn step_wants(expected: &str, word: &str) -> String {
    format!("`{expected}` should stand here, not {word}")
}

pub fn step_goes_on(word: &str) -> String {
    format!("the step should end before {word}")
}

pub fn open_remark() -> String {
    "this parenthesis is not closed".to_string()
}

pub fn remarks() -> String {
    "a remark stands in parentheses, and is passed over".to_string()
}

pub fn no_name(word: &str) -> String {
    format!("a name should stand here, not {word}")
}

pub fn no_verb(word: &str) -> String {
    format!("what is done should stand here, not {word}")
}

pub fn users_do(verb: &str) -> String {
    format!("a session acts here, but `{verb}` is what a user does")
}

pub fn sessions_do(verb: &str) -> String {
    format!("a user acts here, but `{verb}` is what a session does")
}

pub fn there_already(class: Class, name: &str) -> String {
    format!("there is {} `{name}` already", class.one())
}

pub fn no_attribute(name: &str) -> String {
    format!("there is no attribute `{name}` here")
}

pub fn attributes_are(names: &str) -> String {
    format!("the attributes are {names}")
}

pub fn given_twice(name: &str) -> String {
    format!("`{name}` is given twice")
}

pub fn not_given(name: &str) -> String {
    format!("`{name}` is not given")
}

pub fn needs(class: &str, names: &str) -> String {
    format!("every {class} needs {names}")
}

pub fn not_in_list(word: &str, attribute: &str) -> String {
    format!("`{word}` is not in the list of `{attribute}`")
}

pub fn list_is(attribute: &Attribute) -> String {
    match attribute.names.is_empty() {
        true => format!("the list is 0 to {}", attribute.size - 1),
        false => format!("the list is {{{}}}", listed(attribute.names.iter().map(String::as_str))),
    }
}
