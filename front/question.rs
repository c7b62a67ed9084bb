//! Questions: in words, and as the three bytes that the library takes.

use crate::command_messages as messages;
use crate::model::{Class, Question, Rules, Who};
use crate::names::nearest;
use crate::phrase;
use crate::report::{Place, Report};
use crate::words::{words, Token, Word};

/// The words of a question that stands on the command line. One argument is taken apart as in a text; of several each is a word or a whole name.
pub fn of_arguments(arguments: &[String]) -> Vec<Word> {
    let tokens: Vec<Token> = match arguments {
        [one] => words(one).into_iter().map(|word| word.token).collect(),
        _ => arguments.iter().map(|argument| of_argument(argument)).chain(std::iter::once(Token::End)).collect(),
    };
    tokens.into_iter().map(|token| Word { token, place: Place::default(), first: false }).collect()
}

fn of_argument(argument: &str) -> Token {
    if argument.chars().all(|c| c.is_ascii_digit()) {
        return argument.parse().map_or(Token::BadName, Token::Number);
    }
    match argument.strip_prefix('"').and_then(|rest| rest.strip_suffix('"')) {
        Some(name) => Token::Quoted(name.to_string()),
        None => Token::Name(argument.to_string()),
    }
}

/// A question in words, up to `End`: `WHO PERMISSION [on ITEM]`.
pub fn read(rules: &Rules, words: &[Word]) -> Result<Question, Report> {
    let (who, rest) = who(rules, words)?;
    let advised = |report: Report| match question_word(&rest[0]) {
        Some(_) => Report { help: Some(messages::question_form()), ..report },
        None => report,
    };
    let (permission, rest) = permission(rules, rest).map_err(advised)?;
    let (item, rest) = item(rules, rest)?;
    match rest[0].token {
        Token::End => Ok(Question { who, permission, item }),
        _ => Err(Report::error(rest[0].place, messages::question_goes_on(&shown(&rest[0])), Some(messages::question_form()))),
    }
}

/// `anna`, `user anna`, `user 0`, `session night_run`, `anyone`, and the words that follow.
pub fn who<'w>(rules: &Rules, words: &'w [Word]) -> Result<(Who, &'w [Word]), Report> {
    match word(words) {
        Some("anyone") => Ok((Who::Anyone, &words[1..])),
        Some("user") if names_one(words) => Ok((Who::User(number(rules, Class::User, &words[1])?), &words[2..])),
        Some("session") if names_one(words) => Ok((Who::Session(number(rules, Class::Session, &words[1])?), &words[2..])),
        _ => Ok((bare_who(rules, &words[0])?, &words[1..])),
    }
}

/// Whether a class word is followed by what it is the class word of.
fn names_one(words: &[Word]) -> bool {
    matches!(words[1].token, Token::Name(_) | Token::Quoted(_) | Token::Number(_))
}

fn bare_who(rules: &Rules, word: &Word) -> Result<Who, Report> {
    if let Some(known) = question_word(word) {
        let is_name = [Class::User, Class::Session].iter().any(|class| place_of(rules, *class, known).is_some());
        let help = if is_name { messages::class_word(known) } else { messages::question_form() };
        return Err(Report::error(word.place, messages::is_a_word(known), Some(help)));
    }
    let name = name(word).ok_or_else(|| Report::error(word.place, messages::no_who(&shown(word)), Some(messages::question_form())))?;
    match (place_of(rules, Class::User, name), place_of(rules, Class::Session, name)) {
        (Some(_), Some(_)) => Err(Report::error(word.place, messages::two_classes(name), Some(messages::class_word(name)))),
        (Some(user), None) => Ok(Who::User(user)),
        (None, Some(session)) => Ok(Who::Session(session)),
        (None, None) => Err(unknown_who(rules, name, word.place)),
    }
}

/// A permission's name, and the words that follow.
pub fn permission<'w>(rules: &Rules, words: &'w [Word]) -> Result<(usize, &'w [Word]), Report> {
    let names = || rules.permissions.iter().map(|p| p.name.as_str());
    let help = |meant: Option<&str>| Some(with_meant(messages::permissions_are(&written(names())), meant));
    let name = match name(&words[0]) {
        Some(name) => name,
        None => return Err(Report::error(words[0].place, messages::no_permission_word(&shown(&words[0])), help(None))),
    };
    match names().position(|p| p == name) {
        Some(number) => Ok((number, &words[1..])),
        None => Err(Report::error(words[0].place, messages::no_permission(name), help(nearest(name, names())))),
    }
}

/// `on line_4711`, `on item line_4711`, `on item 1`, `on any item`, or nothing, which is any item; and the words that follow.
pub fn item<'w>(rules: &Rules, words: &'w [Word]) -> Result<(Option<usize>, &'w [Word]), Report> {
    if word(words) != Some("on") {
        return Ok((None, words));
    }
    let words = &words[1..];
    match word(words) {
        Some("any") if word(&words[1..]) == Some("item") => Ok((None, &words[2..])),
        Some("item") if names_one(words) => Ok((Some(number(rules, Class::Item, &words[1])?), &words[2..])),
        _ => {
            if let Some(known) = question_word(&words[0]) {
                return Err(Report::error(words[0].place, messages::is_a_word(known), Some(messages::item_word(known))));
            }
            if let Token::Number(number) = words[0].token {
                return Err(Report::error(words[0].place, messages::bare_number(number), Some(messages::item_word(&number.to_string()))));
            }
            Ok((Some(number(rules, Class::Item, &words[0])?), &words[1..]))
        }
    }
}

/// A word of questions: what has it as its name needs its class word, or quotes.
fn question_word(word: &Word) -> Option<&str> {
    match &word.token {
        Token::Name(name) if phrase::QUESTION_WORDS.contains(&name.as_str()) => Some(name),
        _ => None,
    }
}

/// The number of a starting holder that a word names, or is.
fn number(rules: &Rules, class: Class, word: &Word) -> Result<usize, Report> {
    match &word.token {
        Token::Number(n) if (*n as usize) < rules.holders(class).len() => Ok(*n as usize),
        Token::Number(n) => Err(unknown(rules, class, &n.to_string(), word.place)),
        Token::Name(name) | Token::Quoted(name) => place_of(rules, class, name).ok_or_else(|| unknown(rules, class, name, word.place)),
        _ => Err(Report::error(word.place, messages::no_one_of(class, &shown(word)), Some(those(rules, class)))),
    }
}

fn place_of(rules: &Rules, class: Class, name: &str) -> Option<usize> {
    rules.holders(class).iter().position(|holder| holder.name == name)
}

fn unknown(rules: &Rules, class: Class, name: &str, place: Place) -> Report {
    let meant = nearest(name, names(rules, class));
    Report::error(place, messages::no_such(class.word(), name), Some(with_meant(those(rules, class), meant)))
}

/// A name that neither a user nor a starting session has.
fn unknown_who(rules: &Rules, name: &str, place: Place) -> Report {
    if rules.permissions.iter().any(|permission| permission.name == name) {
        return Report::error(place, messages::no_who(&format!("`{name}`, a permission")), Some(messages::question_form()));
    }
    if rules.sessions.is_empty() {
        return unknown(rules, Class::User, name, place);
    }
    let meant = nearest(name, names(rules, Class::User).chain(names(rules, Class::Session)));
    let help = format!("{}; {}", those(rules, Class::User), those(rules, Class::Session));
    Report::error(place, messages::no_such("user or session", name), Some(with_meant(help, meant)))
}

/// Which holders of a class there are.
fn those(rules: &Rules, class: Class) -> String {
    if rules.holders(class).is_empty() {
        return messages::none_of(class);
    }
    messages::those_are(class, &written(names(rules, class)))
}

/// Names in a row, each as it is written.
fn written<'a>(names: impl Iterator<Item = &'a str>) -> String {
    names.map(phrase::name).collect::<Vec<_>>().join(", ")
}

fn names(rules: &Rules, class: Class) -> impl Iterator<Item = &str> {
    rules.holders(class).iter().map(|holder| holder.name.as_str())
}

/// Help, with the name that was meant.
pub fn with_meant(help: String, meant: Option<&str>) -> String {
    match meant {
        Some(name) => messages::did_you_mean(&help, &phrase::name(name)),
        None => help,
    }
}

/// The first word, if it can be a word of the language.
fn word(words: &[Word]) -> Option<&str> {
    match &words[0].token {
        Token::Name(name) => Some(name),
        _ => None,
    }
}

fn name(word: &Word) -> Option<&str> {
    match &word.token {
        Token::Name(name) | Token::Quoted(name) => Some(name),
        _ => None,
    }
}

/// A word as a message shows it.
pub fn shown(word: &Word) -> String {
    let word = match &word.token {
        Token::Name(name) | Token::Quoted(name) => name.chars().map(crate::report::shown).collect(),
        Token::Number(n) => n.to_string(),
        Token::Mark(mark) => mark.to_string(),
        Token::Other(c) => crate::report::shown(*c).to_string(),
        Token::Unclosed | Token::BadName => "\"".to_string(),
        Token::Hidden => "?".to_string(),
        Token::End => return "the end".to_string(),
    };
    format!("`{word}`")
}

/// The question's three bytes.
pub fn bytes(question: Question) -> [u8; 3] {
    let (kind, number) = match question.who {
        Who::Session(n) => (0, n),
        Who::User(n) => (1, n),
        Who::Anyone => (2, 0),
    };
    let item = question.item.map_or(0x80, |n| n as u8);
    [kind << 6 | number as u8, item, (question.permission as u8) << 4]
}

/// The question of three bytes, if they are laid out as one and name what is there.
pub fn of_bytes(rules: &Rules, bytes: &[u8]) -> Option<Question> {
    let whos = rules.sessions.iter().enumerate().map(|(n, _)| Who::Session(n)).chain(rules.users.iter().enumerate().map(|(n, _)| Who::User(n)));
    let items = || rules.items.iter().enumerate().map(|(n, _)| Some(n)).chain(std::iter::once(None));
    for who in whos.chain(std::iter::once(Who::Anyone)) {
        for item in items() {
            for permission in 0..rules.permissions.len() {
                let question = Question { who, permission, item };
                if self::bytes(question) == bytes {
                    return Some(question);
                }
            }
        }
    }
    None
}

/// The three bytes in hex, as `--question` takes them.
pub fn hex(question: Question) -> String {
    bytes(question).iter().map(|byte| format!("{byte:02x}")).collect()
}

/// A question as it is written: `importer agree on line_4711`; any item is left out.
pub fn words_of(rules: &Rules, question: Question) -> String {
    let asked = format!("{} {}", phrase::who(rules, question.who), phrase::name(&rules.permissions[question.permission].name));
    match question.item {
        None => asked,
        item => format!("{asked} on {}", phrase::item(rules, item)),
    }
}
