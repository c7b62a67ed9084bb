//! What a text declares in declarations that could not be read. Using it is no further fault.

use crate::words::{Token, Word};
use std::collections::HashSet;

#[derive(Default)]
pub struct Unread {
    names: HashSet<String>,
    /// The words of declarations whose name could not be read.
    nameless: HashSet<String>,
    /// Whether a quote that is not closed hides a declaration.
    hidden: bool,
    /// What there is too much of; it is said once.
    over: HashSet<&'static str>,
    /// Whether some user, session or item is not counted.
    pub miscounted: bool,
}

impl Unread {
    pub fn add(&mut self, name: &str) {
        self.names.insert(name.to_string());
        self.miscounted = true;
    }

    /// Whether a name may be declared by a declaration with this word.
    pub fn has(&self, word: &str, name: &str) -> bool {
        self.hidden || self.names.contains(name) || self.nameless.contains(word)
    }

    /// Whether this is the first that is too much.
    pub fn add_over(&mut self, what: &'static str) -> bool {
        self.over.insert(what)
    }

    /// Keeps the names of a lost declaration. A formula or expectation declares none.
    pub fn keep(&mut self, words: &[Word]) {
        let first = words.first().and_then(name).unwrap_or("");
        if ["open", "change", "make", "allow", "expect"].contains(&first) {
            return;
        }
        let attribute = words.get(1).and_then(name) == Some("attribute");
        let (kind, named) = if attribute { ("attribute", words.get(2)) } else { (first, words.get(1)) };
        if named.and_then(name).is_none() {
            self.nameless.insert(kind.to_string());
        }
        self.hidden |= words.iter().any(|word| word.token == Token::Unclosed);
        words.iter().filter_map(name).for_each(|name| self.add(name));
    }
}

fn name(word: &Word) -> Option<&str> {
    match &word.token {
        Token::Name(name) | Token::Quoted(name) => Some(name),
        _ => None,
    }
}
