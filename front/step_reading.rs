//! Reading a step in words: the inverse of `Run::words`.

use crate::command_messages as messages;
use crate::holders::in_list;
use crate::library::{self, row};
use crate::model::{Attribute, Class};
use crate::names::{listed, nearest};
use crate::question::{permission, shown, with_meant};
use crate::report::Report;
use crate::steps::Run;
use crate::words::{Token, Word};

/// The words of one step that are still to be read; `End` is the last.
struct Line<'w> {
    words: Vec<&'w Word>,
    at: usize,
}

impl<'w> Line<'w> {
    /// A step without its number in front and without remarks in parentheses.
    fn of(words: &'w [Word]) -> Result<Line<'w>, Report> {
        let mut depth = 0;
        let mut opened = words[0].place;
        let mut kept: Vec<&Word> = Vec::new();
        for word in words {
            match word.token {
                Token::Mark("(") => {
                    depth += 1;
                    opened = word.place;
                }
                Token::Mark(")") if depth > 0 => depth -= 1,
                _ if depth == 0 || word.token == Token::End => kept.push(word),
                _ => {}
            }
        }
        if depth > 0 {
            return Err(Report::error(opened, messages::open_remark(), Some(messages::remarks())));
        }
        let at = usize::from(matches!(kept[0].token, Token::Number(_)));
        Ok(Line { words: kept, at })
    }

    fn word(&self) -> &'w Word {
        self.words[self.at]
    }

    /// The word, and goes on to the next one; the end stays.
    fn take(&mut self) -> &'w Word {
        let word = self.word();
        if word.token != Token::End {
            self.at += 1;
        }
        word
    }

    /// Goes past a word of the language or a mark, if it stands here.
    fn passes(&mut self, expected: &str) -> bool {
        let here = match &self.word().token {
            Token::Name(name) => name == expected,
            Token::Mark(mark) => *mark == expected,
            _ => false,
        };
        if here {
            self.take();
        }
        here
    }

    fn expect(&mut self, expected: &str) -> Result<(), Report> {
        if self.passes(expected) {
            return Ok(());
        }
        Err(Report::error(self.word().place, messages::step_wants(expected, &shown(self.word())), Some(messages::step_forms())))
    }

    /// The class word in front of a name, if there is one: a class word that is followed by a name or a number.
    fn class_word(&mut self) -> Option<Class> {
        let class = crate::model::CLASSES.iter().copied().find(|class| self.word().token == Token::Name(class.word().to_string()))?;
        match self.words[self.at + 1].token {
            Token::Quoted(_) | Token::Number(_) => {}
            Token::Name(ref next) if !VERBS.contains(&next.as_str()) => {}
            _ => return None,
        }
        self.take();
        Some(class)
    }
}

pub const VERBS: [&str; 5] = ["opens", "closes", "changes", "makes", "uses"];

fn wrong_name(word: &Word) -> Report {
    Report::error(word.place, messages::no_name(&shown(word)), Some(messages::step_forms()))
}

impl Run<'_> {
    /// A step in words: its row, and the name that it gives to what it opens or makes.
    pub fn read(&self, words: &[Word]) -> Result<(u64, Option<String>), Report> {
        let mut line = Line::of(words)?;
        let (actor, subject) = self.subject(&mut line)?;
        let verb = line.take();
        let target = match (&verb.token, actor) {
            (Token::Name(verb), Class::User) if verb == "opens" => return self.brings(line, library::OPEN, subject, Class::Session),
            (Token::Name(verb), Class::Session) if verb == "makes" => return self.brings(line, library::MAKE, subject, Class::Item),
            (Token::Name(verb), Class::User) if verb == "closes" => {
                let session = self.known(&mut line, &[Class::Session])?.1;
                return ended(line, row(library::CLOSE, subject, session, 0));
            }
            (Token::Name(verb), Class::Session) if verb == "uses" => return self.uses(line, subject),
            (Token::Name(verb), Class::User) if verb == "changes" => Class::Session,
            (Token::Name(verb), Class::Session) if verb == "changes" => Class::Item,
            (Token::Name(name), _) if VERBS.contains(&name.as_str()) => {
                let who = if actor == Class::User { messages::sessions_do(name) } else { messages::users_do(name) };
                return Err(Report::error(verb.place, who, Some(messages::step_forms())));
            }
            _ => return Err(Report::error(verb.place, messages::no_verb(&shown(verb)), Some(messages::step_forms()))),
        };
        self.changes(line, subject, target)
    }

    /// Who acts: a user or a session.
    fn subject(&self, line: &mut Line) -> Result<(Class, u64), Report> {
        self.known(line, &[Class::User, Class::Session])
    }

    /// A holder that is there, of one of some classes, by its name or, after its class word, its number.
    fn known(&self, line: &mut Line, classes: &[Class]) -> Result<(Class, u64), Report> {
        let place = line.word().place;
        let named = line.class_word();
        let word = line.take();
        let classes: Vec<Class> = classes.iter().copied().filter(|class| named.map_or(true, |named| named == *class)).collect();
        let name = match &word.token {
            Token::Number(number) if named.is_some() => {
                return match classes.first() {
                    Some(class) if *number < self.next(*class) => Ok((*class, *number)),
                    Some(class) => Err(Report::error(word.place, messages::no_such(class.word(), &number.to_string()), None)),
                    None => Err(wrong_name(word)),
                }
            }
            Token::Name(name) | Token::Quoted(name) => name,
            _ => return Err(wrong_name(word)),
        };
        let found: Vec<(Class, usize)> = classes.iter().filter_map(|class| Some((*class, self.names(*class).number(name)?))).collect();
        match found[..] {
            [(class, number)] => Ok((class, number as u64)),
            [] => {
                let names = || classes.iter().flat_map(|class| self.names(*class).all.iter().map(String::as_str));
                let what = classes.iter().map(|class| class.word()).collect::<Vec<_>>().join(" or ");
                let help = nearest(name, names()).map(messages::meant);
                Err(Report::error(word.place, messages::no_such(&what, name), help))
            }
            _ => Err(Report::error(place, messages::two_classes(name), Some(messages::class_word(name)))),
        }
    }

    /// `opens NAME: VALUES`, `makes NAME: VALUES`.
    fn brings(&self, mut line: Line, kind: u64, subject: u64, class: Class) -> Result<(u64, Option<String>), Report> {
        let class_word = line.word();
        if line.class_word().map_or(false, |named| named != class) {
            return Err(wrong_name(class_word));
        }
        let word = line.take();
        let name = match &word.token {
            Token::Name(name) | Token::Quoted(name) => name.clone(),
            _ => return Err(wrong_name(word)),
        };
        if self.names(class).number(&name).is_some() {
            return Err(Report::error(word.place, messages::there_already(class, &name), None));
        }
        let attributes = self.rules.of(class);
        let given = values(&mut line, attributes)?;
        let mut codes = Vec::new();
        for (attribute, code) in attributes.iter().zip(given) {
            let missing = || {
                let help = messages::needs(class.word(), &listed_names(attributes));
                Report::error(word.place, messages::not_given(&attribute.name), Some(help))
            };
            codes.push(code.ok_or_else(missing)?);
        }
        let (row, _) = ended(line, row(kind, subject, self.next(class), self.rules.pack(class, &codes)))?;
        Ok((row, Some(name)))
    }

    /// `changes NAME: VALUES`: what is not given stays.
    fn changes(&self, mut line: Line, subject: u64, class: Class) -> Result<(u64, Option<String>), Report> {
        let number = self.known(&mut line, &[class])?.1;
        let attributes = self.rules.of(class);
        let before = if class == Class::Session { self.session(number).map(|(_, codes)| codes) } else { self.item(number) };
        let before = before.unwrap_or_else(|| vec![0; attributes.len()]);
        let codes: Vec<u8> = values(&mut line, attributes)?.iter().zip(before).map(|(code, was)| code.unwrap_or(was)).collect();
        let kind = if class == Class::Session { library::CHANGE_SESSION } else { library::CHANGE_ITEM };
        ended(line, row(kind, subject, number, self.rules.pack(class, &codes)))
    }

    /// `uses PERMISSION on NAME`.
    fn uses(&self, mut line: Line, subject: u64) -> Result<(u64, Option<String>), Report> {
        let named = permission(self.rules, &[line.take().clone()])?.0;
        line.expect("on")?;
        let item = self.known(&mut line, &[Class::Item])?.1;
        ended(line, row(library::ACCESS, subject, item, named as u64))
    }
}

/// The row, if nothing follows.
fn ended(line: Line, row: u64) -> Result<(u64, Option<String>), Report> {
    match line.word().token {
        Token::End => Ok((row, None)),
        _ => Err(Report::error(line.word().place, messages::step_goes_on(&shown(line.word())), Some(messages::step_forms()))),
    }
}

fn listed_names(attributes: &[Attribute]) -> String {
    listed(attributes.iter().map(|attribute| attribute.name.as_str()))
}

/// `: NAME = VALUE, ..`, or nothing: the code of each attribute that is given.
fn values(line: &mut Line, attributes: &[Attribute]) -> Result<Vec<Option<u8>>, Report> {
    let mut codes = vec![None; attributes.len()];
    if line.word().token == Token::End {
        return Ok(codes);
    }
    line.expect(":")?;
    loop {
        let word = line.take();
        let name = match &word.token {
            Token::Name(name) | Token::Quoted(name) => name,
            _ => return Err(wrong_name(word)),
        };
        let names = || attributes.iter().map(|attribute| attribute.name.as_str());
        let unknown = || {
            let help = with_meant(messages::attributes_are(&listed_names(attributes)), nearest(name, names()));
            Report::error(word.place, messages::no_attribute(name), Some(help))
        };
        let number = names().position(|attribute| attribute == name).ok_or_else(unknown)?;
        line.expect("=")?;
        let code = value(line, &attributes[number])?;
        if codes[number].replace(code).is_some() {
            return Err(Report::error(word.place, messages::given_twice(&attributes[number].name), None));
        }
        if !line.passes(",") {
            return Ok(codes);
        }
    }
}

/// A value of an attribute: one from its list, or for a set any in braces.
fn value(line: &mut Line, attribute: &Attribute) -> Result<u8, Report> {
    if !attribute.set {
        return member(line, attribute);
    }
    line.expect("{")?;
    let mut set = 0;
    if line.passes("}") {
        return Ok(set);
    }
    loop {
        set |= 1 << member(line, attribute)?;
        if line.passes("}") {
            return Ok(set);
        }
        line.expect(",")?;
    }
}

/// The number of a value in its list.
fn member(line: &mut Line, attribute: &Attribute) -> Result<u8, Report> {
    let word = line.take();
    let (number, shown) = match &word.token {
        Token::Number(n) => (usize::try_from(*n).ok().filter(|n| *n < attribute.size), n.to_string()),
        Token::Name(name) | Token::Quoted(name) => (attribute.names.iter().position(|value| value == name), name.clone()),
        _ => return Err(wrong_name(word)),
    };
    match number {
        Some(number) => Ok(number as u8),
        None => Err(Report::error(word.place, messages::not_in_list(&shown, &attribute.name), Some(in_list(attribute, &shown)))),
    }
}
