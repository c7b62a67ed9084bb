//! Reading lists: with a name, `list ledger = {bank, customers}`, or in place, in the declaration of an attribute.

use crate::command_messages::meant;
use crate::messages;
use crate::model::List;
use crate::names::{listed, nearest};
use crate::phrase;
use crate::reader::{Lost, Named, Read, Reader};
use crate::report::Place;
use crate::words::Token;

/// So many lists can have a name; the greatest number that a list can have.
const LISTS: usize = 31;
/// So many values a list can have, and one that a set uses.
const VALUES: usize = 16;
const SET_VALUES: usize = 8;
/// What stands after `one of` and `set of`.
const SOURCE: &str = "a list, a number or `{`";

/// The values of a list; with a fault in it its size is 0, and any value is taken for one of it.
#[derive(Default)]
pub struct Values {
    pub size: usize,
    pub names: Vec<String>,
}

/// How the values of a list may be given.
struct Form {
    most: usize,
    /// What stands before them.
    before: &'static str,
    sizes: &'static str,
}

impl Reader {
    /// Whether the present word is `list` and, by the words that follow, declares one. Everywhere else it is an ordinary name.
    pub fn declares_list(&self) -> bool {
        let goes_on = self.sees(2, "=") || self.sees_values(2) || self.sees(2, ":") && self.sees_values(3);
        self.sees(0, "list") && self.sees_name(1) && goes_on
    }

    /// Whether what comes so many words later can be the values of a list.
    fn sees_values(&self, words: usize) -> bool {
        self.sees(words, "{") || matches!(self.ahead(words).token, Token::Number(_))
    }

    /// The list is there from its name on, so that a fault in its values causes no others.
    pub fn list(&mut self) -> Read<()> {
        self.form = messages::list_form();
        self.step();
        let named = self.name("a name")?;
        let first = self.rules.lists.iter().find(|list| list.name == named.name).map(|list| list.place);
        let counted = self.is_new("a list", &named, first) && self.counts(self.rules.lists.len(), LISTS, "lists with names", &named);
        let number = self.rules.lists.len();
        if counted {
            self.rules.lists.push(List { name: named.name, number: 0, size: 0, names: Vec::new(), place: named.place });
        }
        let fixed = self.fixed_number();
        self.equals()?;
        let form = Form { most: VALUES, before: "list level =", sizes: messages::list_values() };
        let values = self.values_of_list(&form, "a number or `{`")?;
        if counted {
            let fixed = fixed.and_then(|(fixed, place)| self.is_free(fixed, place, values.size));
            let list = &mut self.rules.lists[number];
            (list.number, list.size, list.names) = (fixed.unwrap_or(0), values.size, values.names);
        }
        Ok(())
    }

    /// The number that a list fixes, if it does, and its place; one out of range is a fault.
    fn fixed_number(&mut self) -> Option<(usize, Place)> {
        let number = match self.word().token {
            Token::Number(number) => usize::try_from(number).unwrap_or(usize::MAX),
            _ => return None,
        };
        let place = self.step();
        if (1..=LISTS).contains(&number) {
            return Some((number, place));
        }
        self.fault(place, messages::list_number(LISTS, &self.source(place)), messages::list_numbers());
        None
    }

    /// `=`. If it is missing, or a colon stands in its place, that is passed over.
    fn equals(&mut self) -> Read<()> {
        if self.take("=") {
            return Ok(());
        }
        let goes_on = self.sees_values(0) || self.sees(0, ":") && self.sees_values(1);
        let lost = self.misplaced("`=`");
        if !goes_on {
            return Err(lost);
        }
        self.take(":");
        Ok(())
    }

    /// The number that a list of this size fixes, if no list before it does.
    fn is_free(&mut self, number: usize, place: Place, size: usize) -> Option<usize> {
        let (name, line, other) = match self.rules.lists.iter().find(|list| list.number == number) {
            None => return Some(number),
            Some(list) => (phrase::name(&list.name), list.place.line, list.size),
        };
        let known = other > 0 && size > 0;
        let message = match known && other != size {
            true => messages::two_sizes(number, &name, other, size),
            false => messages::number_taken(number, &name),
        };
        self.fault(place, message, messages::taken_in(line));
        None
    }

    /// Gives each list that fixes no number the lowest one that no list of the text fixes and no list before it took.
    pub fn number_lists(&mut self) {
        let mut taken: Vec<usize> = self.rules.lists.iter().map(|list| list.number).collect();
        for list in self.rules.lists.iter_mut().filter(|list| list.number == 0) {
            list.number = (1..).find(|number| !taken.contains(number)).unwrap_or(0);
            taken.push(list.number);
        }
    }

    /// The list of an attribute: which one with a name it is, if it is one, and its values.
    pub fn list_used(&mut self, set: bool) -> Read<(Option<usize>, Values)> {
        let known = self.rules.lists.iter().any(|list| self.sees(0, &list.name));
        if let Some(word) = self.list_in_quotes() {
            return Err(self.misplaced_for(SOURCE, messages::in_quotes(&word)));
        }
        if !self.sees_name(0) || self.resumes() && !known {
            let most = if set { SET_VALUES } else { VALUES };
            let form = Form { most, before: if set { "set of" } else { "one of" }, sizes: messages::list_sizes() };
            return Ok((None, self.values_of_list(&form, SOURCE)?));
        }
        let named = self.name("a list")?;
        let found = self.rules.lists.iter().enumerate().find(|(_, list)| list.name == named.name);
        let (number, size, names, line) = match found {
            Some((number, list)) => (number, list.size, list.names.clone(), list.place.line),
            None => return self.no_list(&named).map(|_| (None, Values::default())),
        };
        if set && size > SET_VALUES {
            self.fault(named.place, messages::set_list_size(SET_VALUES, &named.shown(), size), messages::long_list_in(line));
            return Ok((None, Values::default()));
        }
        Ok((Some(number), Values { size, names }))
    }

    /// The present word, if it is a word of the language that stands without quotes where a list of that name is meant.
    fn list_in_quotes(&self) -> Option<String> {
        match &self.word().token {
            Token::Name(word) if !self.sees_name(0) && !self.word().first && self.rules.lists.iter().any(|list| list.name == *word) => Some(word.clone()),
            _ => None,
        }
    }

    /// A name that no list has so far. What follows it, if no declaration begins there, is passed over.
    fn no_list(&mut self, named: &Named) -> Read<()> {
        if !self.unread.has("list", &named.name) {
            let names: Vec<&str> = self.rules.lists.iter().map(|list| list.name.as_str()).collect();
            let help = match (self.comes_later(&["list"], &named.name), nearest(&named.name, names.iter().copied())) {
                (Some(line), _) => messages::comes_later(line),
                (None, _) if named.name == "list" && names.iter().any(|name| self.sees(0, name)) => messages::only_the_name(&self.source(self.word().place)),
                (None, Some(name)) => meant(&phrase::name(name)),
                (None, None) if self.sees(0, ",") => messages::braces().to_string(),
                (None, None) if names.is_empty() => messages::declare_list(&named.shown()),
                (None, None) => messages::so_far("list", &listed(names.into_iter())),
            };
            self.fault(named.place, messages::none_so_far("list", &named.shown()), help);
        }
        if self.ends() {
            Ok(())
        } else {
            Err(Lost)
        }
    }

    /// The values of a list: how many there are, or their names in braces.
    fn values_of_list(&mut self, form: &Form, wanted: &str) -> Read<Values> {
        if let Token::Number(number) = self.word().token {
            let place = self.step();
            let size = usize::try_from(number).unwrap_or(usize::MAX);
            return Ok(self.sized(form, size, place, Vec::new()));
        }
        if !self.take("{") {
            return Err(self.misplaced(wanted));
        }
        let names = self.listed_names(form)?;
        let place = names.get(form.most).map_or(self.word().place, |named| named.place);
        Ok(self.sized(form, names.len(), place, names))
    }

    /// Values if their number is in range. `place` is where it would not be.
    fn sized(&mut self, form: &Form, size: usize, place: Place, names: Vec<Named>) -> Values {
        if (1..=form.most).contains(&size) {
            return Values { size, names: names.into_iter().map(|named| named.name).collect() };
        }
        let shown = if names.is_empty() { self.source(place) } else { size.to_string() };
        self.fault(place, messages::list_size(form.most, &shown), form.sizes);
        Values::default()
    }

    /// The names of a list, to its closing brace.
    fn listed_names(&mut self, form: &Form) -> Read<Vec<Named>> {
        let mut names: Vec<Named> = Vec::new();
        loop {
            let help = match self.word().token {
                Token::Number(_) => messages::list_of_numbers(form.before),
                Token::Mark("}") if names.is_empty() => form.sizes.to_string(),
                Token::Mark("}") => messages::last_comma().to_string(),
                _ => String::new(),
            };
            if !help.is_empty() {
                return Err(self.misplaced_for("a name", help));
            }
            let named = self.name("a name")?;
            let first = names.iter().take(VALUES).find(|other| other.name == named.name).map(|other| other.place);
            if !self.passed_over {
                self.is_new("a value", &named, first);
            }
            names.push(named);
            if self.take("}") {
                return Ok(names);
            }
            self.comma()?;
        }
    }

    /// A comma between two names or values in braces. One that is missing is passed over.
    pub fn comma(&mut self) -> Read<()> {
        if self.take(",") {
            return Ok(());
        }
        let more = self.sees_name(0) || matches!(self.word().token, Token::Number(_));
        let lost = self.misplaced("`,` or `}`");
        if more {
            Ok(())
        } else {
            Err(lost)
        }
    }
}
