//! Reading a text: its declarations one after another, then what concerns the whole of it.

use crate::command_messages::meant;
use crate::holders::USERS;
use crate::messages;
use crate::model::{Class, Heading, Permission, Rules};
use crate::names::{listed, nearest};
use crate::phrase;
use crate::reader::{Named, Read, Reader};
use crate::report::{Place, Report};
use crate::warnings;
use crate::words::Token;

const PERMISSIONS: usize = 8;

/// The rules of a text, and what is to be said of it, by place. There are rules exactly if nothing that is said is an error.
pub fn read(text: &str) -> (Option<Rules>, Vec<Report>) {
    let mut reader = Reader::new(text);
    reader.declarations();
    reader.number_lists();
    reader.name_unnamed(Class::Session);
    reader.name_unnamed(Class::Item);
    reader.expectations();
    if reader.reports.is_empty() {
        reader.nothing_missing();
    }
    let rules = if reader.reports.is_empty() {
        reader.reports = warnings::of(&reader.rules, &reader.seen);
        Some(reader.rules)
    } else {
        None
    };
    reader.reports.sort_by_key(|report| report.place);
    (rules, reader.reports)
}

impl Reader {
    pub fn declaration(&mut self) -> Read<()> {
        let word = match &self.word().token {
            Token::Name(name) => name.clone(),
            _ => return Err(self.no_declaration()),
        };
        match word.as_str() {
            "list" => self.list(),
            "user" => self.of_class(Class::User),
            "session" => self.of_class(Class::Session),
            "item" => self.of_class(Class::Item),
            "permission" => self.permission(),
            "open" | "change" | "make" | "allow" => self.formula(),
            "expect" => self.expectation(),
            _ => Err(self.no_declaration()),
        }
    }

    /// An attribute or a holder; also an attribute without the word `attribute`, or with another one like it.
    fn of_class(&mut self, class: Class) -> Read<()> {
        let omitted = self.sees(2, ":") && self.sees_any(3, &["one", "set"]) && self.sees(4, "of");
        let misspelt = self.sees_name(2) && self.meant_word(1, &["attribute"]).is_some();
        if self.sees(1, "attribute") || omitted || misspelt {
            self.attribute(class)
        } else {
            self.holder(class)
        }
    }

    fn permission(&mut self) -> Read<()> {
        self.form = messages::permission_form();
        let place = self.step();
        let named = self.name("a name")?;
        let first = self.rules.permissions.iter().find(|p| p.name == named.name).map(|p| p.place);
        if self.is_new("a permission", &named, first) && self.counts(self.rules.permissions.len(), PERMISSIONS, "permissions", &named) {
            self.rules.permissions.push(Permission { name: named.name, place });
        }
        if self.ends() {
            return Ok(());
        }
        Err(self.misplaced("a new declaration"))
    }

    /// Whether a name is not taken; a taken one is a fault.
    pub fn is_new(&mut self, what: &str, named: &Named, first: Option<Place>) -> bool {
        if let Some(first) = first {
            self.fault(named.place, messages::already(what, &named.shown()), messages::first_is(first.line));
            self.unread.miscounted = true;
        }
        first.is_none()
    }

    /// Whether there is a place for one more. The first one too many is a fault.
    pub fn counts(&mut self, count: usize, most: usize, what: &'static str, named: &Named) -> bool {
        if count < most {
            return true;
        }
        if self.unread.add_over(what) {
            self.fault(named.place, messages::too_many(most, what), messages::one_too_many());
        }
        self.unread.add(&named.name);
        false
    }

    /// The number of a name among those declared so far; of an unknown one nothing, with a fault.
    pub fn declared(&mut self, what: &str, named: &Named, names: &[String]) -> Option<usize> {
        let number = names.iter().position(|name| *name == named.name);
        if number.is_none() && !self.unread.has(what, &named.name) {
            let help = match (self.comes_later(&[what], &named.name), nearest(&named.name, names.iter().map(String::as_str))) {
                (Some(line), _) => messages::comes_later(line),
                (None, Some(name)) => meant(&phrase::name(name)),
                (None, None) if names.is_empty() => messages::declare_first(what, &named.shown()),
                (None, None) => messages::so_far(what, &listed(names.iter().map(String::as_str))),
            };
            self.fault(named.place, messages::none_so_far(what, &named.shown()), help);
        }
        number
    }

    /// Nothing else has such a name: `its_number` sees to it.
    fn name_unnamed(&mut self, class: Class) {
        for number in 0..self.rules.holders(class).len() {
            if self.rules.holders(class)[number].name.is_empty() {
                self.holders(class)[number].name = phrase::unnamed(class, number);
            }
        }
    }

    /// Puts the formulas in the file's order; a user, permission or formula that is missing is a fault.
    fn nothing_missing(&mut self) {
        let end = self.word().place;
        if self.rules.users.is_empty() {
            self.fault(end, messages::none("user"), messages::at_least_one("user", USERS));
        }
        if self.rules.permissions.is_empty() {
            self.fault(end, messages::none("permission"), messages::at_least_one("permission", PERMISSIONS));
        }
        for heading in (0..4 + self.rules.permissions.len()).map(Heading::of) {
            let place = match heading {
                Heading::Allow(permission) => self.rules.permissions[permission].place,
                _ => end,
            };
            match self.formulas.iter().position(|drafted| drafted.heading == heading) {
                Some(number) => self.rules.formulas.push(std::mem::take(&mut self.formulas[number].formula)),
                None => {
                    let words = phrase::heading(&self.rules, heading);
                    self.fault(place, messages::no_formula(&words), messages::a_formula(&words));
                }
            }
        }
    }
}
