//! Words of a text, a question or a step, with their places.

use crate::report::{is_hidden, Place};

#[derive(Clone, Debug, PartialEq, Eq)]
pub enum Token {
    /// Letters of any alphabet, digits and underscores, not beginning with a digit: a word of the language, or a name.
    Name(String),
    /// A name in double quotes.
    Quoted(String),
    /// Decimal digits; the greatest number stands for all that are too great.
    Number(u64),
    /// `: , = < <= { } ( ) .`
    Mark(&'static str),
    /// A quote that its line does not close.
    Unclosed,
    /// Digits that letters follow without a blank, or a name in quotes that is none: see `is_name`.
    BadName,
    /// A hidden character, in a comment too.
    Hidden,
    /// Any other character.
    Other(char),
    End,
}

#[derive(Clone, Debug)]
pub struct Word {
    pub token: Token,
    pub place: Place,
    /// Whether no other word stands before it on its line.
    pub first: bool,
}

const MARKS: [&str; 11] = ["<=", ":", ",", "=", "<", "{", "}", "(", ")", ".", "$"];

fn begins_name(c: char) -> bool {
    c.is_alphabetic() && !is_hidden(c) || c == '_'
}

fn within_name(c: char) -> bool {
    begins_name(c) || c.is_ascii_digit()
}

/// Whether a name can stand without quotes, words of the language apart.
pub fn is_plain(name: &str) -> bool {
    name.chars().next().map_or(false, begins_name) && name.chars().all(within_name)
}

/// All words of a text, `End` last. `#` begins a comment that ends with its line; a byte order mark at the front is passed over.
pub fn words(text: &str) -> Vec<Word> {
    let mut found: Vec<Word> = Vec::new();
    let mut end = Place { line: 1, column: 1, length: 1 };
    for (number, line) in text.strip_prefix('\u{FEFF}').unwrap_or(text).lines().enumerate() {
        let characters: Vec<char> = line.chars().collect();
        let mut at = 0;
        let mut first = true;
        while at < characters.len() && characters[at] != '#' {
            if characters[at].is_whitespace() && !is_hidden_here(characters[at]) {
                at += 1;
                continue;
            }
            let (token, length) = word(&characters[at..]);
            found.push(Word { token, place: Place { line: number + 1, column: at + 1, length }, first });
            first = false;
            at += length;
        }
        for (column, _) in characters.iter().enumerate().skip(at).filter(|(_, c)| is_hidden_here(**c)) {
            found.push(Word { token: Token::Hidden, place: Place { line: number + 1, column: column + 1, length: 1 }, first });
        }
        end = Place { line: number + 1, column: characters.len().max(1), length: 1 };
    }
    found.push(Word { token: Token::End, place: end, first: true });
    joined(found)
}

/// Hidden characters but tabs.
fn is_hidden_here(c: char) -> bool {
    c != '\t' && is_hidden(c)
}

/// Digits that letters follow without a blank are one word, and no good one.
fn joined(words: Vec<Word>) -> Vec<Word> {
    let mut found: Vec<Word> = Vec::new();
    for word in words {
        match (found.last_mut(), &word.token) {
            (Some(last), Token::Name(_)) if matches!(last.token, Token::Number(_)) && touches(last.place, word.place) => {
                last.token = Token::BadName;
                last.place = through(last.place, word.place);
            }
            _ => found.push(word),
        }
    }
    found
}

/// Whether nothing stands between two places.
pub fn touches(left: Place, right: Place) -> bool {
    left.line == right.line && left.column + left.length == right.column
}

/// From one place through another, or only the first where they are on different lines.
pub fn through(from: Place, to: Place) -> Place {
    if from.line != to.line {
        return from;
    }
    Place { length: to.column + to.length - from.column, ..from }
}

/// The word at the front, and how many characters it has.
fn word(rest: &[char]) -> (Token, usize) {
    let run = |within: fn(char) -> bool| rest.iter().take_while(|c| within(**c)).count();
    let c = rest[0];
    if is_hidden_here(c) {
        return (Token::Hidden, 1);
    }
    if begins_name(c) {
        let length = run(within_name);
        return (Token::Name(rest[..length].iter().collect()), length);
    }
    if c.is_ascii_digit() {
        let length = run(|c| c.is_ascii_digit());
        let digits: String = rest[..length].iter().collect();
        return (Token::Number(digits.parse().unwrap_or(u64::MAX)), length);
    }
    if c == '"' {
        return quoted(rest);
    }
    let pair: String = rest.iter().take(2).collect();
    match MARKS.iter().find(|mark| pair.starts_with(**mark)) {
        Some(mark) => (Token::Mark(mark), mark.len()),
        None => (Token::Other(c), 1),
    }
}

fn quoted(rest: &[char]) -> (Token, usize) {
    match rest[1..].iter().position(|c| *c == '"') {
        None => (Token::Unclosed, rest.len()),
        Some(length) => {
            let name: String = rest[1..=length].iter().collect();
            let token = if is_name(&name) { Token::Quoted(name) } else { Token::BadName };
            (token, length + 2)
        }
    }
}

/// So many characters a name in quotes has at most.
pub const LONGEST_NAME: usize = 64;

/// Whether this can be a name in quotes: it is no number, each character is seen, and so is each blank: one at a time, and between others.
pub fn is_name(name: &str) -> bool {
    let blanks = name.starts_with(' ') || name.ends_with(' ') || name.contains("  ");
    let unseen = |c: char| is_hidden(c) || c.is_whitespace() && c != ' ';
    let number = name.chars().all(|c| c.is_ascii_digit());
    !blanks && !number && !name.chars().any(unseen) && name.chars().count() <= LONGEST_NAME
}
