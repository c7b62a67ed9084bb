//! The rules that a command is given: a text or a rule file, read and checked.

use crate::answer::never;
use crate::command_messages as messages;
use crate::json::Json;
use crate::library;
use crate::model::{Question, Rules, Who};
use crate::phrase;
use crate::place::{self, Taken};
use crate::place_messages::{at_bit, at_place};
use crate::printed::internal;
use crate::report::{Place, Report, Severity};
use crate::{bits, differing, file, grammar, numbers, sha256};
use std::io::Read;

/// Rules with the bytes of their rule file. `text` is there where they were written as one; `reports` are its warnings and notes.
pub struct Input {
    pub name: String,
    pub bytes: Vec<u8>,
    /// How far the library read these bytes.
    pub taken: Taken,
    pub rules: Rules,
    pub text: Option<String>,
    pub reports: Vec<Report>,
    /// Whether names were asked for that are not those of this file.
    pub names_lost: bool,
}

/// Why there is no answer.
pub enum Failure {
    /// The command line, or a file that cannot be read or written.
    Said { message: String, help: Option<String> },
    /// Faults of a text, with its name.
    Faults { name: String, text: String, reports: Vec<Report> },
    /// What is wrong with the question; `file` is the rules' object.
    Question { file: Json, report: Report },
    /// A number of the library, said of a whole file (line 0) or of places in a text; `place` is where the file itself was refused.
    Refused { name: String, file: Json, text: String, number: u32, taken: Taken, place: Option<String>, reports: Vec<Report> },
}

impl Failure {
    pub fn said(message: String, help: Option<String>) -> Failure {
        Failure::Said { message, help }
    }
}

/// So many bytes are read at most: no rules, questions or steps of people are longer.
const LONGEST: u64 = 1 << 24;

/// Reads the file of a name; `-` is standard input. The name is the one that messages have.
pub fn contents(argument: &str) -> Result<(String, Vec<u8>), Failure> {
    let name = match argument {
        "-" => "standard input",
        "" => "\"\"",
        name => name,
    };
    let mut bytes = Vec::new();
    let read = if argument == "-" {
        std::io::stdin().take(LONGEST + 1).read_to_end(&mut bytes)
    } else {
        std::fs::File::open(argument).and_then(|file| file.take(LONGEST + 1).read_to_end(&mut bytes))
    };
    match read {
        Ok(_) if bytes.len() as u64 > LONGEST => Err(Failure::said(messages::too_long(name, LONGEST), None)),
        Ok(_) => Ok((name.to_string(), bytes)),
        Err(error) => Err(Failure::said(messages::unreadable(name, &reason(&error)), None)),
    }
}

/// The text that bytes are.
pub fn text_of(name: &str, bytes: Vec<u8>) -> Result<String, Failure> {
    String::from_utf8(bytes).map_err(|_| Failure::said(messages::not_utf8_text(name), None))
}

/// Why a file cannot be read or written, without the system's number for it.
pub fn reason(error: &std::io::Error) -> String {
    let words = error.to_string();
    words.split(" (os error").next().unwrap_or("").to_string()
}

/// Reads rules; a rule file gets the names of a text that assembles to the same bytes.
pub fn load(argument: &str, names: Option<&str>) -> Result<Input, Failure> {
    let (name, bytes) = contents(argument)?;
    let (number, taken) = match place::read(&bytes) {
        (Ok(()), _) => return of_file(name, bytes, names),
        (Err(number), taken) => (number, taken),
    };
    match std::str::from_utf8(&bytes) {
        Ok(text) if bytes.iter().all(|byte| *byte >= 9) => {
            if names.is_some() {
                return Err(Failure::said(messages::names_for_a_text(&name), None));
            }
            of_text(name, text.to_string())
        }
        _ => Err(refused_file(name, &bytes, number, taken)),
    }
}

fn refused_file(name: String, bytes: &[u8], number: u32, taken: Taken) -> Failure {
    let help = if bytes.get(3..).map_or(false, |rest| library::read(rest).is_ok()) {
        Some(messages::input_of_rights())
    } else if bytes.starts_with(&[0xFF, 0xFE]) || bytes.starts_with(&[0xFE, 0xFF]) || bytes.iter().all(|byte| *byte >= 9) {
        Some(messages::not_utf8())
    } else {
        differing::in_file(bytes, number)
    };
    let place = place::of(bytes, number, taken.bits);
    let refusal = with_number(numbers::words(number), number);
    let message = place.as_ref().map_or_else(|| at_bit(&refusal, taken.bits), |place| at_place(&refusal, taken.bits, place));
    let report = Report { severity: Severity::Refused, place: Place::default(), message, help };
    Failure::Refused { file: described(&name, bytes), name, text: String::new(), number, taken, place, reports: vec![report] }
}

fn with_number(words: &str, number: u32) -> String {
    format!("{words} (number {number})")
}

/// The rules of a file that the library reads. They must give the same bytes again.
fn of_file(name: String, bytes: Vec<u8>, names: Option<&str>) -> Result<Input, Failure> {
    let rules = file::rules(&bytes);
    let taken = checked(&rules, &bytes);
    let mut input = Input { name, bytes, taken, rules, text: None, reports: Vec::new(), names_lost: false };
    if let Some(names) = names {
        let (name, text) = contents(names)?;
        if library::read(&text).is_ok() {
            return Err(Failure::said(messages::is_a_file(&name), None));
        }
        let named = of_text(name.clone(), text_of(&name, text)?)?;
        if named.bytes == input.bytes {
            input.reports.extend(named.of(Severity::Warning).map(|report| elsewhere(&name, report)));
            input.rules = named.rules;
        } else {
            let message = messages::names_of_others(&name, &input.name);
            input.reports.push(Report::warning(Place::default(), message, None));
            input.names_lost = true;
        }
    }
    Ok(input)
}

/// A report on another text than the one that is asked about.
fn elsewhere(name: &str, report: &Report) -> Report {
    let message = format!("{name}:{}:{}: {}", report.place.line, report.place.column, report.message);
    Report { place: Place::default(), message, ..report.clone() }
}

/// The rules of a text. Its rule file must be one that the library reads and writes back the same.
fn of_text(name: String, text: String) -> Result<Input, Failure> {
    let (rules, reports) = grammar::read(&text);
    let rules = match rules {
        Some(rules) => rules,
        None => return Err(Failure::Faults { name, text, reports }),
    };
    let bytes = bits::bytes(&rules);
    let taken = checked(&rules, &bytes);
    Ok(Input { name, bytes, taken, rules, text: Some(text), reports, names_lost: false })
}

/// Holds the rules to the bytes: the library reads all their bits, writes them back the same, and they are the rules' own.
fn checked(rules: &Rules, bytes: &[u8]) -> Taken {
    let (read, taken) = place::read(bytes);
    if let Err(number) = read {
        internal(&format!("the library refuses an assembled file: {number}"));
    }
    if taken.bits != 8 * bytes.len() as u64 {
        internal("the library counts other bits than an accepted file has");
    }
    if library::write_back(bytes).as_deref() != Ok(bytes) {
        internal("the library writes an assembled file back as another");
    }
    if bits::bytes(rules) != bytes || bits::bytes(&file::rules(bytes)) != bytes {
        internal("a file's rules give other bytes");
    }
    taken
}

impl Input {
    /// The reports of one severity.
    pub fn of(&self, severity: Severity) -> impl Iterator<Item = &Report> {
        self.reports.iter().filter(move |report| report.severity == severity)
    }

    /// With `--strict` warnings are faults.
    pub fn strict(self) -> Result<Input, Failure> {
        if self.of(Severity::Warning).next().is_none() {
            return Ok(self);
        }
        let fault = |report: &Report| Report { severity: Severity::Error, ..report.clone() };
        let reports = self.of(Severity::Warning).map(fault).collect();
        Err(Failure::Faults { name: self.name, text: self.text.unwrap_or_default(), reports })
    }

    /// A number that the library gives to a question. 9 is said of each session that it is true of, found by asking with that session alone.
    pub fn refused(&self, number: u32) -> Failure {
        let mut reports = Vec::new();
        if number == 9 {
            reports = (0..self.rules.sessions.len()).filter(|n| self.cannot_be(*n)).map(|n| self.nine(n)).collect();
        }
        if reports.is_empty() {
            let message = with_number(numbers::words(number), number);
            reports.push(Report { severity: Severity::Refused, place: Place::default(), message, help: None });
        }
        let text = self.text.clone().unwrap_or_default();
        Failure::Refused { name: self.name.clone(), file: self.json(), text, number, taken: self.taken, place: None, reports }
    }

    /// Whether the file with this starting session alone gets 9.
    fn cannot_be(&self, session: usize) -> bool {
        let alone = Rules { sessions: vec![self.rules.sessions[session].clone()], ..self.rules.clone() };
        never(&bits::bytes(&alone), Question::SOME) == Err(9)
    }

    fn nine(&self, number: usize) -> Report {
        let session = &self.rules.sessions[number];
        let user = phrase::name(&self.rules.users[session.user].name);
        let values = phrase::values(self.rules.of(crate::model::Class::Session), &session.codes);
        let message = with_number(&messages::cannot_be(&phrase::who(&self.rules, Who::Session(number)), &user, &values), 9);
        let place = if self.text.is_some() { session.place } else { Place::default() };
        Report { severity: Severity::Refused, place, message, help: None }
    }

    pub fn json(&self) -> Json {
        described(&self.name, &self.bytes)
    }
}

/// Name, length and SHA-256 of a rule file.
fn described(name: &str, bytes: &[u8]) -> Json {
    Json::Object(vec![("name", Json::text(name)), ("bytes", Json::Number(bytes.len() as u64)), ("sha256", Json::text(&sha256::hex(bytes)))])
}
