//! The words of a text one after another, and what they give.

use crate::faults::BEGINNINGS;
use crate::messages;
use crate::model::Rules;
use crate::phrase::{self, RESERVED};
use crate::report::{shown, Place, Report};
use crate::unread::Unread;
use crate::words::{words, Token, Word};
use crate::{expect::Expected, formula::Drafted, warnings::Seen};

/// A declaration is given up; its fault has been reported.
pub struct Lost;

pub type Read<T> = Result<T, Lost>;

/// A name and its place.
pub struct Named {
    pub name: String,
    pub place: Place,
}

impl Named {
    /// The name as it is written.
    pub fn shown(&self) -> String {
        phrase::name(&self.name)
    }
}

/// A text that is being read, and what it has given so far.
pub struct Reader {
    lines: Vec<Vec<char>>,
    words: Vec<Word>,
    /// The number of the present word.
    at: usize,
    pub reports: Vec<Report>,
    /// Without formulas and expectations, which are put in when the whole text has been read.
    pub rules: Rules,
    pub formulas: Vec<Drafted>,
    pub expected: Vec<Expected>,
    pub seen: Seen,
    pub unread: Unread,
    /// How the present declaration is written.
    pub form: &'static str,
    /// Whether a missing or wrong word of the present declaration was passed over.
    pub passed_over: bool,
}

impl Reader {
    pub fn new(text: &str) -> Reader {
        let (hidden, words): (Vec<Word>, Vec<Word>) = words(text).into_iter().partition(|word| word.token == Token::Hidden);
        let mut reader = Reader {
            lines: text.strip_prefix('\u{FEFF}').unwrap_or(text).lines().map(|line| line.chars().collect()).collect(),
            words,
            at: 0,
            reports: Vec::new(),
            rules: Rules::default(),
            formulas: Vec::new(),
            expected: Vec::new(),
            seen: Seen::default(),
            unread: Unread::default(),
            form: "",
            passed_over: false,
        };
        hidden.iter().for_each(|word| reader.hidden(word.place));
        reader
    }

    /// The present word. `End` is the last one and is never passed.
    pub fn word(&self) -> &Word {
        self.ahead(0)
    }

    /// The word that comes so many words later, at most `End`.
    pub fn ahead(&self, words: usize) -> &Word {
        &self.words[(self.at + words).min(self.words.len() - 1)]
    }

    /// Goes on to the next word; the place of the one that is left.
    pub fn step(&mut self) -> Place {
        let place = self.word().place;
        self.at = (self.at + 1).min(self.words.len() - 1);
        place
    }

    pub fn at(&self) -> usize {
        self.at
    }

    /// The words from this number on, `End` last.
    pub fn words_from(&self, number: usize) -> &[Word] {
        &self.words[number..]
    }

    /// Passes all words up to `End`.
    pub fn give_up(&mut self) {
        self.at = self.words.len() - 1;
    }

    pub fn at_end(&self) -> bool {
        self.word().token == Token::End
    }

    /// Whether the word that comes so many words later is this word of the language or this mark.
    pub fn sees(&self, words: usize, word: &str) -> bool {
        match &self.ahead(words).token {
            Token::Name(name) => name == word,
            Token::Mark(mark) => *mark == word,
            _ => false,
        }
    }

    pub fn sees_any(&self, words: usize, of: &[&str]) -> bool {
        of.iter().any(|word| self.sees(words, word))
    }

    /// Whether the word that comes so many words later is a name.
    pub fn sees_name(&self, words: usize) -> bool {
        match &self.ahead(words).token {
            Token::Name(name) => !RESERVED.contains(&name.as_str()),
            Token::Quoted(_) => true,
            _ => false,
        }
    }

    /// Passes a word of the language or a mark, if it is the present one.
    pub fn take(&mut self, word: &str) -> bool {
        let seen = self.sees(0, word);
        if seen {
            self.step();
        }
        seen
    }

    /// Passes a word of the language or a mark; any other word is misplaced.
    pub fn need(&mut self, word: &str) -> Read<Place> {
        if !self.sees(0, word) {
            return Err(self.misplaced(&format!("`{word}`")));
        }
        Ok(self.step())
    }

    /// A name. A word of the language that does not begin a line is taken for one, with a fault.
    pub fn name(&mut self, wanted: &str) -> Read<Named> {
        let Word { token, place, first } = self.word().clone();
        let name = match token {
            Token::Name(name) | Token::Quoted(name) if self.sees_name(0) => name,
            Token::Name(name) if !first => {
                self.pass_over(place, messages::reserved(&name), messages::in_quotes(&name));
                self.unread.add(&name);
                name
            }
            _ => return Err(self.misplaced(wanted)),
        };
        self.step();
        Ok(Named { name, place })
    }

    /// The first character of a place.
    pub fn character(&self, place: Place) -> Option<char> {
        self.lines.get(place.line - 1)?.get(place.column - 1).copied()
    }

    /// The characters of a place.
    pub fn source(&self, place: Place) -> String {
        let line = self.lines.get(place.line - 1).map_or(&[][..], |line| &line[..]);
        line.iter().skip(place.column - 1).take(place.length).map(|c| shown(*c)).collect()
    }

    /// The line where a name is declared after these words, further on.
    pub fn comes_later(&self, after: &[&str], name: &str) -> Option<usize> {
        let named = |word: &Word| matches!(&word.token, Token::Name(n) | Token::Quoted(n) if n == name);
        let is = |word: &Word, known: &str| matches!(&word.token, Token::Name(n) if n == known);
        let declares = |row: &&[Word]| {
            let (before, declared) = (&row[1..=after.len()], &row[after.len() + 1]);
            !is(&row[0], "expect") && named(declared) && before.iter().zip(after).all(|(word, known)| is(word, known))
        };
        self.words[self.at.saturating_sub(1)..].windows(after.len() + 2).find(declares).map(|row| row[1].place.line)
    }

    /// Whether a declaration begins at the present word, or the text ends.
    pub fn begins(&self) -> bool {
        match &self.word().token {
            Token::End => true,
            Token::Name(name) => BEGINNINGS.contains(&name.as_str()) && !self.sees(1, "."),
            _ => false,
        }
    }

    /// Whether a declaration that may be complete, and is no formula, ends before the present word.
    pub fn ends(&self) -> bool {
        self.begins() || self.word().first
    }
}
