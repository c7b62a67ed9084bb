//! Reading expectations: `expect anna never agree on line_4711`. Names are looked up when the whole text has been read.

use crate::command_messages::meant;
use crate::messages;
use crate::model::{Expectation, Question};
use crate::phrase::QUESTION_WORDS;
use crate::question;
use crate::reader::{Read, Reader};
use crate::report::{Place, Report};
use crate::words::{Token, Word};

/// An expectation that is well formed, with the numbers of the words where its parts begin.
pub struct Expected {
    never: bool,
    place: Place,
    who: usize,
    permission: usize,
    /// `on`, or what follows an expectation without it.
    item: usize,
}

impl Reader {
    pub fn expectation(&mut self) -> Read<()> {
        self.form = messages::expect_form();
        let place = self.step();
        let who = self.at();
        self.expected_who()?;
        self.form = messages::expect_form();
        if !self.sees_any(0, &["never", "can"]) {
            let help = self.meant_word(0, &["never", "can"]).map_or(self.form.to_string(), meant);
            return Err(self.misplaced_for("`never` or `can`", help));
        }
        let never = self.sees(0, "never");
        self.step();
        let permission = self.at();
        if self.resumes() && !self.is_permission(&self.source(self.word().place)) {
            return Err(self.misplaced("the name of a permission"));
        }
        if self.sees(0, "not") {
            return Err(self.misplaced_for("the name of a permission", messages::never_form()));
        }
        self.name("the name of a permission")?;
        let item = self.at();
        if self.take("on") {
            self.expected_item()?;
            self.form = messages::expect_form();
        }
        if !self.ends() {
            return Err(self.misplaced("`on` or a new declaration"));
        }
        if !self.passed_over {
            self.expected.push(Expected { never, place, who, permission, item });
        }
        Ok(())
    }

    /// Whether the text declares a permission of this name.
    fn is_permission(&self, name: &str) -> bool {
        self.rules.permissions.iter().any(|p| p.name == name) || self.comes_later(&["permission"], name).is_some()
    }

    fn expected_who(&mut self) -> Read<()> {
        if self.take("user") || self.take("session") {
            return self.name_or_number();
        }
        let wanted = "a user, a session or `anyone`";
        if self.sees_any(0, &QUESTION_WORDS) && !self.sees(0, "anyone") {
            let named = self.sees_any(1, &["never", "can"]);
            let help = if named { self.class_needed("user") } else { messages::who_form().to_string() };
            return Err(self.misplaced_for(wanted, help));
        }
        self.form = messages::who_form();
        self.name(wanted).map(|_| ())
    }

    fn expected_item(&mut self) -> Read<()> {
        if self.take("item") {
            return self.name_or_number();
        }
        let wanted = "an item or `any item`";
        if self.sees(0, "any") && self.sees(1, "item") {
            self.step();
            self.step();
            return Ok(());
        }
        if self.sees_any(0, &QUESTION_WORDS) {
            let help = self.class_needed("item");
            return Err(self.misplaced_for(wanted, help));
        }
        self.form = messages::item_asked_form();
        self.name(wanted).map(|_| ())
    }

    fn class_needed(&self, class: &str) -> String {
        messages::class_needed(class, &self.source(self.word().place))
    }

    fn name_or_number(&mut self) -> Read<()> {
        if let Token::Number(_) = self.word().token {
            self.step();
            return Ok(());
        }
        self.name("a name or number").map(|_| ())
    }

    /// Looks up the names of all expectations.
    pub fn expectations(&mut self) {
        for Expected { never, place, who, permission, item } in std::mem::take(&mut self.expected) {
            if self.is_enough() {
                return;
            }
            let asked = question::who(&self.rules, self.words_from(who)).map(|(who, _)| who);
            let used = question::permission(&self.rules, self.words_from(permission)).map(|(permission, _)| permission);
            let target = question::item(&self.rules, self.words_from(item)).map(|(item, _)| item);
            let found = (self.found(asked, who), self.found(used, permission), self.found(target, item));
            if let (Some(who), Some(permission), Some(item)) = found {
                self.rules.expectations.push(Expectation { question: Question { who, permission, item }, never, place });
            }
        }
    }

    /// What the words from this number on name. If they name nothing, that is reported, unless a lost declaration may have the name.
    fn found<T>(&mut self, found: Result<T, Report>, from: usize) -> Option<T> {
        let report = match found {
            Ok(found) => return Some(found),
            Err(report) => report,
        };
        let unread = |word: &Word| match &word.token {
            Token::Name(name) | Token::Quoted(name) => ["user", "session", "item", "permission"].iter().any(|what| self.unread.has(what, name)),
            _ => self.unread.miscounted,
        };
        if !self.words_from(from).iter().take(3).any(|word| word.place == report.place && unread(word)) {
            self.reports.push(report);
        }
        None
    }
}
