//! Faults of a text, and how reading goes on after them.

use crate::command_messages::meant;
use crate::messages;
use crate::reader::{Lost, Reader};
use crate::report::{Place, Report};
use crate::signs::{instead_of, meant_of, no_word};
use crate::words::{Token, Word};

/// The words that declarations begin with.
pub const BEGINNINGS: [&str; 10] = ["list", "user", "session", "item", "permission", "open", "change", "make", "allow", "expect"];

/// More faults than anybody reads: after so many the rest of the text is not read.
pub const ENOUGH: usize = 100;

impl Reader {
    /// Reads declarations to the text's end.
    pub fn declarations(&mut self) {
        while !self.at_end() {
            let from = self.at();
            self.passed_over = false;
            if self.declaration().is_err() {
                self.resume(from);
            }
        }
    }

    /// After a lost declaration: goes on to where one begins a line, and keeps the names that stand before.
    fn resume(&mut self, from: usize) {
        if self.at() == from {
            self.step();
        }
        while !self.at_end() && !self.resumes() {
            self.step();
        }
        let lost = self.words_from(from)[..self.at() - from].to_vec();
        self.unread.keep(&lost);
    }

    /// Whether the present word is the first of its line and cannot but begin a declaration.
    pub fn resumes(&self) -> bool {
        let Word { token, first, .. } = self.word();
        match token {
            Token::Name(name) if *first => match name.as_str() {
                "list" => self.declares_list(),
                "user" => self.sees(1, "attribute") || self.sees_name(1),
                "session" => self.sees_any(1, &["attribute", "of"]) || self.sees_name(1) && self.sees(2, "of"),
                "item" => self.sees_any(1, &["attribute", ":"]) || self.sees_name(1) || self.ahead(1).first && !self.sees(1, "."),
                "permission" | "allow" => true,
                "open" => self.sees(1, "session"),
                "change" => self.sees_any(1, &["session", "item"]),
                "make" => self.sees(1, "item"),
                "expect" => !self.ahead(1).first && (self.sees_name(1) || self.sees_any(1, &["user", "session"])),
                _ => false,
            },
            _ => false,
        }
    }

    /// A fault after which reading goes on in place.
    pub fn fault(&mut self, place: Place, message: impl Into<String>, help: impl Into<String>) {
        if self.is_enough() {
            return;
        }
        self.reports.push(Report::error(place, message.into(), Some(help.into())));
        if self.is_enough() {
            self.give_up();
        }
    }

    /// Whether the rest of the text is not read.
    pub fn is_enough(&self) -> bool {
        self.reports.len() >= ENOUGH
    }

    /// A fault of grammar after which reading goes on in place. What seems misplaced after it may only come of it and is not said.
    pub fn pass_over(&mut self, place: Place, message: impl Into<String>, help: impl Into<String>) {
        if !self.passed_over {
            self.fault(place, message, help);
        }
        self.passed_over = true;
    }

    /// A fault of grammar after which the declaration is given up.
    pub fn lost(&mut self, place: Place, message: impl Into<String>, help: impl Into<String>) -> Lost {
        self.pass_over(place, message, help);
        Lost
    }

    /// The present word cannot stand here; the help is the declaration's form.
    pub fn misplaced(&mut self, wanted: &str) -> Lost {
        self.misplaced_for(wanted, self.form)
    }

    /// The present word cannot stand here. Where the text ends or a declaration begins a line, the word before it is shown.
    pub fn misplaced_for(&mut self, wanted: &str, help: impl Into<String>) -> Lost {
        if self.passed_over {
            return Lost;
        }
        let place = self.word().place;
        if let Some((message, instead)) = self.sign() {
            return self.lost(place, message, instead);
        }
        let last = self.words_from(self.at().saturating_sub(1))[0].place;
        if self.at_end() {
            return self.lost(last, messages::text_ends(wanted, &self.source(last)), help);
        }
        if self.word().first && self.begins() {
            return self.lost(last, messages::should_follow(wanted, &self.source(last)), help);
        }
        self.lost(place, messages::should_stand(wanted, &self.source(place)), help)
    }

    /// The present word begins no declaration.
    pub fn no_declaration(&mut self) -> Lost {
        let place = self.word().place;
        if let Some((message, instead)) = self.sign() {
            return self.lost(place, message, instead);
        }
        let help = self.meant_word(0, &BEGINNINGS).map_or(messages::declarations().to_string(), meant);
        self.lost(place, messages::no_declaration(&self.source(place)), help)
    }

    /// A hidden character is passed over, with a fault.
    pub fn hidden(&mut self, place: Place) {
        let code = self.character(place).map_or(0, u32::from);
        self.fault(place, messages::hidden(code), messages::nothing_hidden());
    }

    /// If the present word means nothing wherever it stands: what is said of it, and what would be right.
    fn sign(&self) -> Option<(String, String)> {
        let word = self.word();
        let source = self.source(word.place);
        match word.token {
            Token::Other(_) | Token::Mark("$") => Some((messages::means_nothing(&source), instead_of(&self.signs()))),
            Token::Unclosed | Token::BadName => Some(no_word(&source)),
            _ => None,
        }
    }

    /// The one of these words that the word so many words later is in capitals, or nearly.
    pub fn meant_word<'a>(&self, words: usize, of: &[&'a str]) -> Option<&'a str> {
        match &self.ahead(words).token {
            Token::Name(name) => meant_of(name, of),
            _ => None,
        }
    }
}
