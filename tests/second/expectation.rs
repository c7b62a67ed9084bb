//! Readable rule text, fourth part: expectations, `expect WHO never PERMISSION on ITEM` and `expect WHO can ...`.

use super::names::{Names, CLASSES};
use super::rules::{ITEM, SESSION, USER};
use super::words::{Bad, Word, Words};

/// Words of expectations; elsewhere they are names like others.
const WORDS: [&str; 6] = ["expect", "never", "can", "on", "anyone", "any"];

/// What an expectation says: whether the answer should be never, and the question.
pub type Asked = (bool, [u8; 3]);

/// How an expectation speaks of somebody or something.
enum Call {
    Any,
    /// A name without a class word.
    Bare(String),
    /// A class word with a name or a number.
    Named(usize, String),
    Numbered(usize, u32),
}

/// An expectation as it was read, with the lines of its names. These are looked up once the whole text is known.
pub struct Expectation {
    never: bool,
    who: (usize, Call),
    permission: (usize, String),
    item: (usize, Call),
}

/// What follows a class word.
fn after_class(words: &mut Words, class: usize) -> Result<Call, Bad> {
    if let Word::Number(number) = *words.peek() {
        words.take();
        return Ok(Call::Numbered(class, number));
    }
    words.name().map(|name| Call::Named(class, name))
}

/// A name without a class word.
fn bare(words: &mut Words) -> Result<Call, Bad> {
    if words.is_one_of(&WORDS) {
        return words.bad("a name should stand here; this word needs a class word before it, or quotes, to be one");
    }
    words.name().map(Call::Bare)
}

fn who(words: &mut Words) -> Result<Call, Bad> {
    if words.take_if("anyone") {
        return Ok(Call::Any);
    }
    for class in [USER, SESSION] {
        if words.take_if(CLASSES[class]) {
            return after_class(words, class);
        }
    }
    bare(words)
}

fn item(words: &mut Words) -> Result<Call, Bad> {
    if words.take_if("any") {
        return words.expect("item").map(|_| Call::Any);
    }
    if words.take_if("item") {
        return after_class(words, ITEM);
    }
    bare(words)
}

/// `WHO never PERMISSION [on ITEM]` or `WHO can PERMISSION [on ITEM]`, after the word `expect`.
pub fn expectation(words: &mut Words) -> Result<Expectation, Bad> {
    let who = (words.line(), who(words)?);
    let never = words.take_if("never");
    if !never && !words.take_if("can") {
        return words.bad("`never` or `can` should stand here");
    }
    let permission = (words.line(), words.name()?);
    let item = match words.take_if("on") {
        true => (words.line(), item(words)?),
        false => (words.line(), Call::Any),
    };
    Ok(Expectation { never, who, permission, item })
}

/// The place of a name in a list of names.
fn place(known: &[String], name: &str) -> Option<u8> {
    known.iter().position(|other| other == name).map(|place| place as u8)
}

/// The class and the number that a call means, a bare name being of one of these classes; nothing for any.
fn found(names: &Names, call: &Call, classes: &[usize]) -> Result<Option<(usize, u8)>, String> {
    let known = |class: usize| [&names.users, &names.sessions, &names.items][class];
    match call {
        Call::Any => Ok(None),
        Call::Named(class, name) => match place(known(*class), name) {
            Some(number) => Ok(Some((*class, number))),
            None => Err(format!("there is no {} `{name}`", CLASSES[*class])),
        },
        Call::Numbered(class, number) => match (*number as usize) < known(*class).len() {
            true => Ok(Some((*class, *number as u8))),
            false => Err(format!("there is no {} {number}", CLASSES[*class])),
        },
        Call::Bare(name) => {
            let of_class = |class: &usize| place(known(*class), name).map(|number| (*class, number));
            let meant: Vec<(usize, u8)> = classes.iter().filter_map(of_class).collect();
            match meant.len() {
                0 => Err(format!("nothing that may stand here is called `{name}`")),
                1 => Ok(Some(meant[0])),
                _ => Err(format!("`{name}` is a user and a session; `user` or `session` should stand before it")),
            }
        }
    }
}

impl Expectation {
    /// What is asked, by numbers; the line and the reason if a name is not there.
    pub fn asked(&self, names: &Names) -> Result<Asked, Bad> {
        let at = |line: usize| move |reason: String| (line, reason);
        let first = match found(names, &self.who.1, &[USER, SESSION]).map_err(at(self.who.0))? {
            None => 2 * 64,
            Some((USER, number)) => 64 + number,
            Some((_, number)) => number,
        };
        let (line, name) = &self.permission;
        let permission = place(&names.permissions, name).ok_or((*line, format!("there is no permission `{name}`")))?;
        let second = match found(names, &self.item.1, &[ITEM]).map_err(at(self.item.0))? {
            None => 128,
            Some((_, number)) => number,
        };
        Ok((self.never, [first, second, permission * 16]))
    }
}
