//! Reading users, starting sessions and starting items with their values: `user anna: role = clerk, ledgers = {bank}`.

use crate::command_messages::{did_you_mean, given_twice, list_is, needs, not_given, not_in_list};
use crate::messages;
use crate::model::{Attribute, Class, Holder};
use crate::names::{listed, nearest, ticked};
use crate::phrase;
use crate::reader::{Named, Read, Reader};
use crate::report::Place;
use crate::words::{Token, Word};

pub const USERS: usize = 16;
const SESSIONS: usize = 32;
const ITEMS: usize = 32;

impl Reader {
    /// The holder is there from its name on, so that a fault in its values causes no others.
    pub fn holder(&mut self, class: Class) -> Read<()> {
        self.form = [messages::user_form(), messages::session_form(), messages::item_form()][class as usize];
        let place = self.step();
        let named = match class {
            Class::User => self.name("a name")?,
            _ => self.optional_name(class)?.unwrap_or(Named { name: String::new(), place }),
        };
        let user = if class == Class::Session { self.user_of_session()? } else { 0 };
        let first = self.rules.holders(class).iter().find(|h| h.name == named.name && !h.name.is_empty()).map(|h| h.place);
        let new = self.is_new(class.one(), &named, first);
        let most = [USERS, SESSIONS, ITEMS][class as usize];
        let counted = new && self.counts(self.rules.holders(class).len(), most, class.plural(), &named);
        if counted {
            self.its_number(class, &named);
            self.holders(class).push(Holder { name: named.name, user, codes: Vec::new(), place });
        }
        let codes = self.values(class, place)?;
        if let (true, Some(holder)) = (counted, self.holders(class).last_mut()) {
            holder.codes = codes;
        }
        Ok(())
    }

    /// A name that unnamed ones have belongs to the one of this number.
    fn its_number(&mut self, class: Class, named: &Named) {
        let number = self.rules.holders(class).len();
        let given = named.name.rsplit('_').next().and_then(|digits| digits.parse().ok());
        let of_another = |n: usize| class != Class::User && n != number && named.name == phrase::unnamed(class, n);
        if let Some(given) = given.filter(|n| of_another(*n)) {
            self.fault(named.place, messages::number_of(&named.name, class.word(), given), messages::its_number(class.word(), number));
        }
    }

    pub fn holders(&mut self, class: Class) -> &mut Vec<Holder> {
        match class {
            Class::User => &mut self.rules.users,
            Class::Session => &mut self.rules.sessions,
            Class::Item => &mut self.rules.items,
        }
    }

    /// The name of a session or item, if it has one.
    fn optional_name(&mut self, class: Class) -> Read<Option<Named>> {
        let unnamed = match class {
            Class::Session => self.sees(0, "of"),
            _ => self.sees(0, ":") || self.begins() && !self.is_meant_as_name(),
        };
        if unnamed {
            return Ok(None);
        }
        let wanted = if class == Class::Session { "a name or `of`" } else { "a name or `:`" };
        if self.resumes() {
            return Err(self.misplaced(wanted));
        }
        let word = self.word().clone();
        if let Token::Name(name) = &word.token {
            if phrase::QUOTED_ONLY.contains(&name.as_str()) {
                self.pass_over(word.place, messages::quoted_only(name, class.word()), messages::in_quotes(name));
            }
        }
        self.name(wanted).map(Some)
    }

    /// Whether `expect` or `list` after `item` is its name, by the words that follow, and begins no declaration.
    fn is_meant_as_name(&self) -> bool {
        self.sees(0, "expect") && self.sees(1, ":") || self.sees(0, "list") && !self.declares_list()
    }

    fn user_of_session(&mut self) -> Read<usize> {
        self.need("of")?;
        let named = self.name("the name of a user")?;
        let names: Vec<String> = self.rules.users.iter().map(|user| user.name.clone()).collect();
        Ok(self.declared("user", &named, &names).unwrap_or(0))
    }

    /// The codes of all attributes of a class, after a colon; without attributes there is no colon.
    fn values(&mut self, class: Class, place: Place) -> Read<Vec<u8>> {
        let mut codes: Vec<Option<u8>> = vec![None; self.rules.of(class).len()];
        let mut known = true;
        let mut more = self.colon(class)?;
        while more {
            known &= self.given(class, &mut codes)?;
            more = self.more_values()?;
        }
        if known {
            self.all_given(class, &codes, place);
        }
        Ok(codes.into_iter().map(Option::unwrap_or_default).collect())
    }

    fn all_given(&mut self, class: Class, codes: &[Option<u8>], place: Place) {
        let attributes = self.rules.of(class);
        let lacking: Vec<&str> = attributes.iter().zip(codes).filter(|(_, code)| code.is_none()).map(|(a, _)| a.name.as_str()).collect();
        let message = match lacking[..] {
            [] => return,
            [one] => not_given(one),
            _ => messages::are_not_given(&ticked(lacking.into_iter())),
        };
        self.fault(place, message, self.needed(class));
    }

    fn needed(&self, class: Class) -> String {
        needs(class.word(), &listed(self.rules.of(class).iter().map(|a| a.name.as_str())))
    }

    /// Whether values follow. A missing colon is passed over.
    fn colon(&mut self, class: Class) -> Read<bool> {
        if self.sees_name(0) && self.sees(1, "=") {
            self.misplaced("`:`");
            return Ok(true);
        }
        if !self.take(":") {
            return if self.ends() { Ok(false) } else { Err(self.misplaced("`:` or a new declaration")) };
        }
        if self.rules.of(class).is_empty() && self.begins() {
            return Err(self.misplaced_for("an attribute", messages::no_colon(class.one())));
        }
        Ok(true)
    }

    /// `role = clerk`. Whether there is such an attribute.
    fn given(&mut self, class: Class, codes: &mut [Option<u8>]) -> Read<bool> {
        let (named, number) = self.attribute_name(class)?;
        self.need("=")?;
        let code = match number.map(|n| self.rules.of(class)[n].clone()) {
            Some(attribute) if attribute.size > 0 => self.code(&attribute)?,
            _ => self.any_value()?,
        };
        // The attribute has a place in `codes`: holders and their attributes are not declared while values are read.
        if let Some(n) = number {
            if codes[n].is_some() {
                self.fault(named.place, given_twice(&named.shown()), self.needed(class));
            }
            codes[n] = Some(code);
        }
        Ok(number.is_some())
    }

    /// An attribute's name and number; of an unknown one no number, with a fault.
    pub fn attribute_name(&mut self, class: Class) -> Read<(Named, Option<usize>)> {
        let names: Vec<String> = self.rules.of(class).iter().map(|a| a.name.clone()).collect();
        let shown = || names.iter().map(String::as_str);
        let those = if names.is_empty() { messages::no_attributes(class.one()) } else { messages::attributes_of(class.one(), &listed(shown())) };
        let known = |token: &Token| matches!(token, Token::Name(name) if names.contains(name));
        if !self.sees_name(0) && !known(&self.word().token) {
            return Err(self.misplaced_for("an attribute", those));
        }
        let named = self.name("an attribute")?;
        let number = names.iter().position(|name| *name == named.name);
        if number.is_none() && !self.unread.has("attribute", &named.name) {
            let help = match self.comes_later(&[class.word(), "attribute"], &named.name) {
                Some(line) => messages::comes_later(line),
                None => with_meant(those, &named.name, shown()),
            };
            self.fault(named.place, messages::no_attribute(class.one(), &named.shown()), help);
        }
        Ok((named, number))
    }

    /// Whether more values follow. A missing comma is passed over.
    fn more_values(&mut self) -> Read<bool> {
        if self.take(",") {
            return Ok(true);
        }
        if self.sees_name(0) && self.sees(1, "=") {
            self.misplaced("`,`");
            return Ok(true);
        }
        if self.ends() {
            return Ok(false);
        }
        Err(self.misplaced("`,` or a new declaration"))
    }

    /// The code of a value that is given to an attribute.
    fn code(&mut self, attribute: &Attribute) -> Read<u8> {
        let place = self.word().place;
        match (attribute.set, self.sees(0, "{")) {
            (false, false) => self.member(attribute),
            (false, true) => {
                self.fault(place, messages::holds_one(&attribute.name), messages::without_braces());
                self.any_value()
            }
            (true, true) => self.set(attribute),
            (true, false) => self.bare_set(attribute),
        }
    }

    /// `{bank, customers}`; a comma may stand after the last member.
    fn set(&mut self, attribute: &Attribute) -> Read<u8> {
        let mut code = 0;
        self.need("{")?;
        while !self.take("}") {
            code |= 1u32 << self.member(attribute)?;
            if !self.sees(0, "}") {
                self.comma()?;
            }
        }
        Ok(code as u8)
    }

    /// A set without its opening brace: a fault. What follows a comma is a member, unless it is the next attribute.
    fn bare_set(&mut self, attribute: &Attribute) -> Read<u8> {
        let place = self.word().place;
        self.member(attribute)?;
        self.fault(place, messages::holds_set(&attribute.name), messages::braces());
        while self.sees(0, ",") && !self.sees(2, "=") {
            self.step();
            self.member(attribute)?;
        }
        self.take("}");
        Ok(0)
    }

    /// A value by its name or number; 0, with a fault, where it is not in the list.
    fn member(&mut self, attribute: &Attribute) -> Read<u8> {
        let Word { token, place, first } = self.word().clone();
        let (number, name) = match token {
            Token::Number(number) => (usize::try_from(number).ok().filter(|n| *n < attribute.size), None),
            Token::Name(name) | Token::Quoted(name) if self.sees_name(0) || !first => {
                (attribute.names.iter().position(|value| *value == name), Some(name))
            }
            _ => return Err(self.misplaced("a value")),
        };
        if number.is_none() {
            let word = name.unwrap_or_else(|| self.source(place));
            self.fault(place, not_in_list(&word, &attribute.name), in_list(attribute, &word));
            self.step();
        } else if name.is_some() {
            self.name("a value")?;
        } else {
            self.step();
        }
        Ok(number.unwrap_or(0) as u8)
    }

    /// Passes a value of an attribute whose list is not known.
    fn any_value(&mut self) -> Read<u8> {
        let braces = self.take("{");
        while !(braces && self.take("}")) {
            match self.word().token {
                Token::Number(_) => drop(self.step()),
                _ => drop(self.name("a value")?),
            }
            if !braces {
                break;
            }
            if !self.sees(0, "}") {
                self.comma()?;
            }
        }
        Ok(0)
    }
}

/// What an attribute's list has instead of a word.
pub fn in_list(attribute: &Attribute, word: &str) -> String {
    with_meant(list_is(attribute), word, attribute.names.iter().map(String::as_str))
}

/// Help, with the name that was meant.
fn with_meant<'a>(help: String, word: &str, names: impl Iterator<Item = &'a str>) -> String {
    match nearest(word, names) {
        Some(name) => did_you_mean(&help, &phrase::name(name)),
        None => help,
    }
}
