//! How faults, refusals and warnings are told.

use crate::colour::{paint, Style};
use crate::faults::ENOUGH;
use crate::input::{Failure, Input};
use crate::json::Json;
use crate::numbers;
use crate::options::Options;
use crate::printed::{Printed, NO_ANSWER};
use crate::report::{self, Report, Severity};

/// So many faults of a text are shown.
const SHOWN: usize = 20;

/// Words from outside as they are shown: a terminal obeys nothing in them.
pub fn clean(words: &str) -> String {
    words.chars().map(report::shown).collect()
}

/// A report in lines: at its place in the text, or of the whole file.
pub fn lines(name: &str, text: &str, report: &Report, colour: bool) -> String {
    let name = &clean(name);
    let report = &Report { message: clean(&report.message), help: report.help.as_deref().map(clean), ..*report };
    let style = if report.severity == Severity::Warning { Style::Warning } else { Style::Error };
    let word = paint(colour, style, &format!("{}:", report.severity.word()));
    if report.place.line > 0 {
        return report::in_text(name, text, report, &word);
    }
    let help = report.help.as_ref().map_or(String::new(), |help| format!("      = {help}\n"));
    format!("{name}: {word} {}\n{help}", report.message)
}

/// The warnings of a text.
pub fn warnings(input: &Input, options: &Options) -> String {
    let text = input.text.as_deref().unwrap_or("");
    input.of(Severity::Warning).map(|report| lines(&input.name, text, report, options.error_colour)).collect()
}

/// What a command prints where there is no answer.
pub fn printed(failure: &Failure, command: &str, options: &Options) -> Printed {
    let err = if options.json { String::new() } else { in_words(failure, options.error_colour) };
    let out = match failure {
        _ if options.json => format!("{}\n", object(failure, command)),
        Failure::Refused { taken, .. } if command == "check" && options.verbose => taken.line() + "\n",
        _ => String::new(),
    };
    Printed { out, err, status: NO_ANSWER, ..Printed::default() }
}

fn in_words(failure: &Failure, colour: bool) -> String {
    match failure {
        Failure::Said { message, help } => {
            let help = help.as_ref().map_or(String::new(), |help| format!("      = {}\n", clean(help)));
            format!("rules: {}\n{help}", clean(message))
        }
        Failure::Question { report, .. } => lines("question", "", report, colour),
        Failure::Refused { name, text, reports, .. } => reports.iter().map(|report| lines(name, text, report, colour)).collect(),
        Failure::Faults { name, text, reports } => {
            let faults: Vec<&Report> = reports.iter().filter(|report| report.severity == Severity::Error).collect();
            let mut told: String = faults.iter().take(SHOWN).map(|report| lines(name, text, report, colour)).collect();
            if faults.iter().any(|report| report.place.line > 0) {
                told += if faults.len() >= ENOUGH { "at least " } else { "" };
                told += &format!("{} error{}", faults.len(), if faults.len() == 1 { "" } else { "s" });
                told += &if faults.len() > SHOWN { format!(", the first {SHOWN} are shown\n") } else { "\n".to_string() };
            }
            told
        }
    }
}

/// The keys that a command's object has besides `command` and `file`.
fn keys(command: &str) -> &'static [&'static str] {
    match command {
        "ask" => &["question", "verdict", "pairs", "values", "steps"],
        "explain" => &["question", "verdict", "pairs", "values", "steps", "parts", "together"],
        "check" => &["bits", "expectations", "warnings", "notes", "met", "not_met"],
        "replay" => &["question", "steps", "refused", "fits"],
        "assemble" => &["warnings"],
        "list" | "example" | "help" => &["text"],
        "version" => &["version", "library"],
        _ => &[],
    }
}

/// The command's object without an answer: its own keys are null, but for what is said of a refusal.
fn object(failure: &Failure, command: &str) -> Json {
    let named = |name: Json| Json::Object(vec![("name", name), ("bytes", Json::Null), ("sha256", Json::Null)]);
    let file = match failure {
        Failure::Said { .. } => named(Json::Null),
        Failure::Faults { name, .. } => named(Json::text(name)),
        Failure::Question { file, .. } | Failure::Refused { file, .. } => file.clone(),
    };
    let mut members = vec![("command", Json::text(command)), ("file", file)];
    members.extend(keys(command).iter().map(|key| (*key, Json::Null)));
    for (key, value) in refusal(failure) {
        match members.iter_mut().find(|member| member.0 == key) {
            Some(member) => member.1 = value,
            None if key == "verdict" => (),
            None => members.push((key, value)),
        }
    }
    members.push(("errors", Json::List(errors(failure))));
    Json::Object(members)
}

/// What is said of a number of the library. A command that gives no verdict has none here.
fn refusal(failure: &Failure) -> Vec<(&'static str, Json)> {
    let (number, bits, place) = match failure {
        Failure::Refused { number, taken, place, .. } => (*number, taken.bits, place),
        _ => return Vec::new(),
    };
    vec![
        ("verdict", Json::text("refused")),
        ("number", Json::Number(u64::from(number))),
        ("words", Json::text(numbers::words(number))),
        ("bits", Json::Number(bits)),
        ("place", place.as_ref().map_or(Json::Null, |place| Json::text(place))),
    ]
}

fn errors(failure: &Failure) -> Vec<Json> {
    match failure {
        Failure::Said { message, help } => vec![report_json(&Report::error(Default::default(), message.clone(), help.clone()))],
        Failure::Question { report, .. } => vec![report_json(report)],
        Failure::Faults { reports, .. } | Failure::Refused { reports, .. } => {
            reports.iter().filter(|report| matches!(report.severity, Severity::Error | Severity::Refused)).map(report_json).collect()
        }
    }
}

/// A report as an object; where it has no place its line, column and length are null.
pub fn report_json(report: &Report) -> Json {
    let part = |number: usize| if report.place.line == 0 { Json::Null } else { Json::Number(number as u64) };
    Json::Object(vec![
        ("line", part(report.place.line)),
        ("column", part(report.place.column)),
        ("length", part(report.place.length)),
        ("message", Json::text(&report.message)),
        ("help", report.help.as_ref().map_or(Json::Null, |help| Json::text(help))),
    ])
}
