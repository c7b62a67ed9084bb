//! Characters and words that mean nothing in a text, and what to write instead.

use crate::messages;
use crate::names::nearest;
use crate::reader::Reader;
use crate::words::touches;
use crate::words::Token;

impl Reader {
    /// The present mark or character and those that follow it without a blank, three at most: `!=`, `&&`.
    pub fn signs(&self) -> String {
        let mut signs = String::new();
        for words in 0..3 {
            let word = self.ahead(words);
            if words > 0 && !touches(self.ahead(words - 1).place, word.place) {
                break;
            }
            match word.token {
                Token::Other(c) => signs.push(c),
                Token::Mark(mark) => signs += mark,
                _ => break,
            }
        }
        signs
    }
}

/// The one of these words that a name is in capitals, or nearly.
pub fn meant_of<'a>(name: &str, of: &[&'a str]) -> Option<&'a str> {
    let small = name.to_lowercase();
    of.iter().find(|word| **word == small).copied().or_else(|| nearest(name, of.iter().copied()))
}

/// How an operator of other languages is written.
pub fn operator_for(signs: &str) -> Option<&'static str> {
    match signs {
        "!=" | "!==" | "<>" | "/=" | "≠" => Some("not a = b"),
        ">" => Some("b < a"),
        ">=" | "=>" | "≥" => Some("b <= a"),
        "=<" | "≤" => Some("<="),
        "==" | "===" => Some("="),
        "&" | "&&" => Some("and"),
        "|" | "||" => Some("or"),
        "!" | "~" => Some("not"),
        _ => None,
    }
}

/// What to write instead of a character that means nothing, with those that follow it.
pub fn instead_of(signs: &str) -> String {
    if let Some(way) = operator_for(signs) {
        return messages::instead(way);
    }
    let help = match signs.chars().next() {
        Some(';') => messages::no_separator(),
        Some('/' | '*' | '%') => messages::comment(),
        Some('[' | ']') => messages::braces(),
        _ => messages::other_characters(),
    };
    help.to_string()
}

/// What is wrong with a word that is no good name, and what would be right.
pub fn no_word(source: &str) -> (String, String) {
    let message = match source {
        "\"\"" => messages::empty_name(),
        _ if !source.starts_with('"') => return (messages::neither(source), messages::begins_with_letter(source)),
        _ if source.len() > 1 && source.ends_with('"') => messages::unshown(),
        _ => messages::unclosed(),
    };
    (message.to_string(), messages::quotes().to_string())
}
