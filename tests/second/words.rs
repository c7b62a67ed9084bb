//! Readable rule text, first part: cutting the text into words, each with its line.

/// Why a text is bad, and in which line.
pub type Bad = (usize, String);

#[derive(Clone, Debug, PartialEq, Eq)]
pub enum Word {
    /// A run of letters, digits and underscores: a name or a word of the language.
    Name(String),
    /// What stood between double quotes: always a name.
    Quoted(String),
    Number(u32),
    /// One of `: , . { } ( ) = < <=`.
    Mark(&'static str),
    End,
}

/// Words that are part of the language and, without quotes, name nothing.
const RESERVED: [&str; 22] = [
    "user", "session", "item", "new", "attribute", "one", "set", "of", "permission", "open", "change", "make", "allow",
    "let", "and", "or", "not", "in", "subset", "proper", "true", "false",
];

/// The marks, longer ones before those they begin with.
const MARKS: [&str; 10] = ["<=", "<", "=", ":", ",", ".", "{", "}", "(", ")"];

/// Letters may be of any alphabet, digits are 0 to 9.
fn is_name_part(letter: char) -> bool {
    letter.is_alphabetic() && !is_hidden(letter) || letter.is_ascii_digit() || letter == '_'
}

/// Characters that are not shown: control characters, U+2028, U+2029 and Unicode's Default_Ignorable_Code_Point.
fn is_hidden(letter: char) -> bool {
    const OTHERS: [(u32, u32); 17] = [
        (0xAD, 0xAD), (0x34F, 0x34F), (0x61C, 0x61C), (0x115F, 0x1160), (0x17B4, 0x17B5), (0x180B, 0x180F), (0x200B, 0x200F), (0x2028, 0x202E),
        (0x2060, 0x206F), (0x3164, 0x3164), (0xFE00, 0xFE0F), (0xFEFF, 0xFEFF), (0xFFA0, 0xFFA0), (0xFFF0, 0xFFF8), (0x1BCA0, 0x1BCA3),
        (0x1D173, 0x1D17A), (0xE0000, 0xE0FFF),
    ];
    letter.is_control() || OTHERS.iter().any(|(first, last)| (*first..=*last).contains(&u32::from(letter)))
}

/// The name in front of the next double quote, and what follows that quote.
fn quoted(text: &str, line: usize) -> Result<(&str, &str), Bad> {
    let (name, rest) = text.split_once('"').ok_or((line, "this name has no closing quote in its line".to_string()))?;
    if name.is_empty() {
        return Err((line, "there is no name between these quotes".to_string()));
    }
    if name.chars().any(|letter| is_hidden(letter) || letter.is_whitespace() && letter != ' ') {
        return Err((line, "a character that is not shown stands in this name".to_string()));
    }
    if name.starts_with(' ') || name.ends_with(' ') || name.contains("  ") {
        return Err((line, "a blank of this name is not seen".to_string()));
    }
    if name.chars().all(|letter| letter.is_ascii_digit()) || name.chars().count() > 64 {
        return Err((line, "this name is a number, or longer than 64 characters".to_string()));
    }
    Ok((name, rest))
}

/// The word of a run of letters, digits and underscores.
fn name_or_number(run: &str, line: usize) -> Result<Word, Bad> {
    if !run.starts_with(|letter: char| letter.is_ascii_digit()) {
        return Ok(Word::Name(run.to_string()));
    }
    match run.parse() {
        Ok(number) => Ok(Word::Number(number)),
        Err(_) => Err((line, format!("`{run}` is neither a number nor a name"))),
    }
}

/// The words of one line, up to its comment.
fn cut_line(line: usize, text: &str, words: &mut Vec<(usize, Word)>) -> Result<(), Bad> {
    if text.chars().any(|letter| is_hidden(letter) && letter != '\t') {
        return Err((line, "a character that is not shown stands in this line".to_string()));
    }
    let mut rest = text.trim_start();
    while let Some(first) = rest.chars().next() {
        if first == '#' {
            return Ok(());
        }
        if first == '"' {
            let (name, after) = quoted(&rest[1..], line)?;
            words.push((line, Word::Quoted(name.to_string())));
            rest = after;
        } else if is_name_part(first) {
            let end = rest.find(|letter| !is_name_part(letter)).unwrap_or(rest.len());
            words.push((line, name_or_number(&rest[..end], line)?));
            rest = &rest[end..];
        } else if let Some(mark) = MARKS.iter().find(|mark| rest.starts_with(**mark)) {
            words.push((line, Word::Mark(mark)));
            rest = &rest[mark.len()..];
        } else {
            return Err((line, format!("`{first}` means nothing here")));
        }
        rest = rest.trim_start();
    }
    Ok(())
}

/// The words of a text and the place of the next one.
pub struct Words {
    words: Vec<(usize, Word)>,
    place: usize,
}

impl Words {
    /// The words of a whole text; a byte order mark at its start is passed over.
    pub fn of(text: &str) -> Result<Words, Bad> {
        let text = text.strip_prefix('\u{FEFF}').unwrap_or(text);
        let mut words = Vec::new();
        for (number, line) in text.lines().enumerate() {
            cut_line(number + 1, line, &mut words)?;
        }
        words.push((text.lines().count().max(1), Word::End));
        Ok(Words { words, place: 0 })
    }

    /// The next word, which stays.
    pub fn peek(&self) -> &Word {
        &self.words[self.place].1
    }

    /// The word after the next one.
    pub fn peek_second(&self) -> &Word {
        &self.words[(self.place + 1).min(self.words.len() - 1)].1
    }

    /// The line of the next word.
    pub fn line(&self) -> usize {
        self.words[self.place].0
    }

    /// Takes the next word away; the end stays.
    pub fn take(&mut self) -> Word {
        let word = self.peek().clone();
        if word != Word::End {
            self.place += 1;
        }
        word
    }

    /// Whether the next word is this one of the language, or this mark.
    pub fn is_next(&self, text: &str) -> bool {
        match self.peek() {
            Word::Name(name) => name == text,
            Word::Mark(mark) => *mark == text,
            _ => false,
        }
    }

    /// Takes this word away if it is the next one, and says so.
    pub fn take_if(&mut self, text: &str) -> bool {
        let is_next = self.is_next(text);
        if is_next {
            self.place += 1;
        }
        is_next
    }

    /// Takes this word away, which must be the next one.
    pub fn expect(&mut self, text: &str) -> Result<(), Bad> {
        if self.take_if(text) {
            return Ok(());
        }
        self.bad(&format!("`{text}` should stand here, not {}", shown(self.peek())))
    }

    /// The next word if it is a name and not a reserved word of the language.
    pub fn peek_name(&self) -> Option<&str> {
        match self.peek() {
            Word::Quoted(name) => Some(name),
            Word::Name(name) if !RESERVED.contains(&name.as_str()) => Some(name),
            _ => None,
        }
    }

    /// Whether the next word is one of these without quotes.
    pub fn is_one_of(&self, texts: &[&str]) -> bool {
        texts.iter().any(|text| self.is_next(text))
    }

    /// Takes a name away that is not a reserved word of the language.
    pub fn name(&mut self) -> Result<String, Bad> {
        match self.peek_name().map(str::to_string) {
            Some(name) => {
                self.place += 1;
                Ok(name)
            }
            None => self.bad(&format!("a name should stand here, not {}", shown(self.peek()))),
        }
    }

    /// A fault in the line of the next word.
    pub fn bad<T>(&self, reason: &str) -> Result<T, Bad> {
        Err((self.line(), reason.to_string()))
    }
}

/// A word as a message shows it.
pub fn shown(word: &Word) -> String {
    match word {
        Word::Name(name) => format!("`{name}`"),
        Word::Quoted(name) => format!("`\"{name}\"`"),
        Word::Number(number) => format!("`{number}`"),
        Word::Mark(mark) => format!("`{mark}`"),
        Word::End => "the end of the text".to_string(),
    }
}
