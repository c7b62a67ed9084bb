//! A run by the library, with the names of its sessions and items; steps in words.

use crate::library::{self, parts, Live};
use crate::model::{Class, Heading, Owner, Rules, OWNERS};
use crate::names::free;
use crate::phrase;
use crate::step_reading::VERBS;
use std::collections::HashMap;

/// Names by number, and numbers by name.
#[derive(Clone, Default)]
pub struct Names {
    pub all: Vec<String>,
    numbers: HashMap<String, usize>,
}

impl Names {
    fn of<'n>(names: impl Iterator<Item = &'n String>) -> Names {
        let mut found = Names::default();
        names.for_each(|name| found.push(name.clone()));
        found
    }

    fn push(&mut self, name: String) {
        self.numbers.insert(name.clone(), self.all.len());
        self.all.push(name);
    }

    pub fn number(&self, name: &str) -> Option<usize> {
        self.numbers.get(name).copied()
    }
}

/// A live state that the library carries steps out on. The starting sessions and items have the rules' names; each further one gets its own.
#[derive(Clone)]
pub struct Run<'a> {
    pub rules: &'a Rules,
    pub file: &'a [u8],
    live: Live<'a>,
    names: [Names; 3],
}

/// Which formula decides a step, and the values that it uses, by `Owner`. Closing has no formula.
pub struct Said {
    pub heading: Option<Heading>,
    pub codes: [Option<Vec<u8>>; OWNERS.len()],
}

impl<'a> Run<'a> {
    /// The file's start, with cells for so many steps.
    pub fn start(rules: &'a Rules, file: &'a [u8], steps: usize) -> Run<'a> {
        let names = [&rules.users, &rules.sessions, &rules.items].map(|holders| Names::of(holders.iter().map(|holder| &holder.name)));
        match Live::start(file, rules.sessions.len() + steps, rules.items.len() + steps) {
            Ok(live) => Run { rules, file, live, names },
            Err(number) => crate::printed::internal(&format!("the library starts no run of a file that it reads: {number}")),
        }
    }

    /// Carries out a row, by the library; a session or item that comes of it gets `name`, or the one that `words` gives it.
    pub fn carry_out(&mut self, row: u64, name: Option<String>) -> Result<(), u32> {
        let made = self.made(row);
        self.live.step(row)?;
        if let Some(class) = made {
            let name = name.unwrap_or_else(|| self.next_name(class));
            self.names[class as usize].push(name);
        }
        Ok(())
    }

    /// What the library says of a row by another file, with nothing carried out.
    pub fn would(&self, file: &[u8], row: u64) -> Result<(), u32> {
        self.live.copy_for(file).step(row)
    }

    pub fn names(&self, class: Class) -> &Names {
        &self.names[class as usize]
    }

    /// The number that the next session or item gets.
    pub fn next(&self, class: Class) -> u64 {
        self.names[class as usize].all.len() as u64
    }

    /// The class of what a row brings into being.
    fn made(&self, row: u64) -> Option<Class> {
        match parts(row)[0] {
            library::OPEN => Some(Class::Session),
            library::MAKE => Some(Class::Item),
            _ => None,
        }
    }

    fn next_name(&self, class: Class) -> String {
        free(phrase::unnamed(class, self.next(class) as usize), |name| self.names.iter().any(|names| names.number(name).is_some()))
    }

    /// User and codes of an open session, as its cell says (docs/CELLS.md).
    pub fn session(&self, number: u64) -> Option<(usize, Vec<u8>)> {
        let cell = cell(&self.live.sessions, number)?;
        Some(((cell >> 8 & 0xFF) as usize, self.rules.unpack(Class::Session, cell & 0xFF)))
    }

    /// Codes of an item, as its cell says.
    pub fn item(&self, number: u64) -> Option<Vec<u8>> {
        Some(self.rules.unpack(Class::Item, cell(&self.live.items, number)? & 0xFF))
    }

    /// A holder's name as a step has it: with its class word where another class has the name too, and by its number where it has none.
    pub fn name(&self, class: Class, number: u64) -> String {
        match self.names[class as usize].all.get(number as usize) {
            None => format!("{} {number}", class.word()),
            Some(name) if self.names.iter().filter(|names| names.number(name).is_some()).count() > 1 => {
                format!("{} {}", class.word(), written(name))
            }
            Some(name) => written(name),
        }
    }

    /// A session with its user as a remark: `session_1 (importer)`.
    fn acting(&self, number: u64) -> String {
        match self.session(number) {
            Some((user, _)) => format!("{} ({})", self.name(Class::Session, number), self.name(Class::User, user as u64)),
            None => self.name(Class::Session, number),
        }
    }

    /// A row in words, as it stands before it is carried out.
    pub fn words(&self, row: u64) -> String {
        self.words_with(row, None)
    }

    /// The same, with the name that a step gives to what it opens or makes.
    pub fn words_with(&self, row: u64, name: Option<&str>) -> String {
        let [kind, actor, target, value] = parts(row);
        match kind {
            library::OPEN => format!("{} opens {}", self.name(Class::User, actor), self.fresh(Class::Session, name, value)),
            library::CLOSE => format!("{} closes {}", self.name(Class::User, actor), self.name(Class::Session, target)),
            library::CHANGE_SESSION => {
                let before = self.session(target).map(|(_, codes)| codes);
                format!("{} changes {}", self.name(Class::User, actor), self.changed(Class::Session, target, before, value))
            }
            library::MAKE => format!("{} makes {}", self.acting(actor), self.fresh(Class::Item, name, value)),
            library::CHANGE_ITEM => format!("{} changes {}", self.acting(actor), self.changed(Class::Item, target, self.item(target), value)),
            _ => {
                let permission = self.rules.permissions.get(value as usize).map_or(value.to_string(), |p| phrase::name(&p.name));
                format!("{} uses {permission} on {}", self.acting(actor), self.name(Class::Item, target))
            }
        }
    }

    /// The next session or item with all its values.
    fn fresh(&self, class: Class, name: Option<&str>, value: u64) -> String {
        let name = name.map_or_else(|| self.next_name(class), str::to_string);
        with_values(phrase::name(&name), &phrase::values(self.rules.of(class), &self.rules.unpack(class, value)))
    }

    /// A session or item with the values that change: `line_4711: state = matched (was imported)`.
    fn changed(&self, class: Class, number: u64, before: Option<Vec<u8>>, value: u64) -> String {
        let attributes = self.rules.of(class);
        let after = self.rules.unpack(class, value);
        let before = before.unwrap_or_default();
        let mut changes = Vec::new();
        for (i, attribute) in attributes.iter().enumerate() {
            let was = match before.get(i) {
                Some(code) if *code == after[i] => continue,
                Some(code) => format!(" (was {})", phrase::value(attribute, *code)),
                None => String::new(),
            };
            changes.push(format!("{} = {}{was}", phrase::name(&attribute.name), phrase::value(attribute, after[i])));
        }
        with_values(self.name(class, number), &changes.join(", "))
    }

    /// The formula that decides a row, and the values that it uses.
    pub fn said(&self, row: u64) -> Said {
        let [kind, actor, target, value] = parts(row);
        let mut codes: [Option<Vec<u8>>; OWNERS.len()] = Default::default();
        let mut says = |owner: Owner, of: Option<Vec<u8>>| codes[owner as usize] = of;
        let user = || self.rules.users.get(actor as usize).map(|user| user.codes.clone());
        let session = |number| self.session(number).map(|(_, codes)| codes);
        let heading = match kind {
            library::OPEN | library::CHANGE_SESSION => {
                says(Owner::User, user());
                says(Owner::NewSession, Some(self.rules.unpack(Class::Session, value)));
                if kind == library::CHANGE_SESSION {
                    says(Owner::Session, session(target));
                }
                Some(if kind == library::OPEN { Heading::OpenSession } else { Heading::ChangeSession })
            }
            library::MAKE | library::CHANGE_ITEM => {
                says(Owner::Session, session(actor));
                says(Owner::NewItem, Some(self.rules.unpack(Class::Item, value)));
                if kind == library::CHANGE_ITEM {
                    says(Owner::Item, self.item(target));
                }
                Some(if kind == library::MAKE { Heading::MakeItem } else { Heading::ChangeItem })
            }
            library::ACCESS => {
                says(Owner::Session, session(actor));
                says(Owner::Item, self.item(target));
                Some(Heading::Allow(value as usize))
            }
            _ => None,
        };
        Said { heading, codes }
    }
}

/// A name as a step has it: in quotes also where it is a verb, which a class word may not stand before.
fn written(name: &str) -> String {
    if VERBS.contains(&name) {
        return format!("\"{name}\"");
    }
    phrase::name(name)
}

fn with_values(name: String, values: &str) -> String {
    if values.is_empty() {
        name
    } else {
        format!("{name}: {values}")
    }
}

/// A cell that codes an open session or an item: bit 16 is set, and none above it.
fn cell(cells: &[u64], number: u64) -> Option<u64> {
    cells.get(number as usize).copied().filter(|cell| cell >> 16 == 1)
}
