//! `rules check`: each `expect` line of a text, and the notes on it; with `-v`, how far the file was read. Its faults and warnings are told before.

use crate::answer::{answer, Answer};
use crate::ask;
use crate::colour::{paint, Style};
use crate::failure::{self, report_json};
use crate::input::Input;
use crate::json::Json;
use crate::model::Expectation;
use crate::options::Options;
use crate::phrase;
use crate::printed::{Printed, FOUND, GOOD};
use crate::progress;
use crate::report::Severity;

/// An expectation and the library's answer.
struct Checked<'a> {
    expectation: &'a Expectation,
    told: Answer,
}

impl Checked<'_> {
    fn met(&self) -> bool {
        self.expectation.never == self.told.never()
    }
}

pub fn run(input: &Input, options: &Options) -> Printed {
    let expectations = &input.rules.expectations;
    let answers = progress::in_order("check", "expectations", expectations, |e| answer(&input.rules, &input.bytes, e.question));
    let mut all = Vec::new();
    for (expectation, told) in expectations.iter().zip(answers) {
        match told {
            Ok(told) => all.push(Checked { expectation, told }),
            Err(number) => return failure::printed(&input.refused(number), "check", options),
        }
    }
    let out = if options.json { format!("{}\n", object(input, &all)) } else { words(input, &all, options) };
    let status = if all.iter().all(Checked::met) { GOOD } else { FOUND };
    Printed { out, status, ..Printed::default() }
}

fn words(input: &Input, all: &[Checked], options: &Options) -> String {
    let width = all.iter().map(|checked| checked.expectation.place.line.to_string().len()).max().unwrap_or(0);
    let shown = all.iter().filter(|checked| !options.quiet || !checked.met());
    let mut out = if options.verbose { input.taken.line() + "\n" } else { String::new() };
    for checked in shown {
        out += &checked_words(input, checked, width, options.colour);
        out += &ask::raw(checked.expectation.question, &checked.told, width + 11, options);
    }
    if !options.quiet {
        for note in input.of(Severity::Note) {
            out += &format!("note: {}:{}:{}: {}\n", failure::clean(&input.name), note.place.line, note.place.column, note.message);
        }
    }
    out + &summary(all)
}

/// An expectation with its line; one that is not met with what can happen instead.
fn checked_words(input: &Input, checked: &Checked, width: usize, colour: bool) -> String {
    let text = phrase::expectation(&input.rules, checked.expectation);
    let line = checked.expectation.place.line;
    if checked.met() {
        return format!("ok       {line:>width$}  {text}\n");
    }
    let not_met = paint(colour, Style::Error, "NOT MET");
    if checked.told.never() {
        return format!("{not_met}  {line:>width$}  {text}: never\n");
    }
    let steps = checked.told.steps();
    format!("{not_met}  {line:>width$}  {text}: can happen, in {}\n{}", ask::counted_steps(steps.len()), ask::step_lines(steps, width + 11))
}

/// `5 met, 1 not met`, `6 met`, `no expectations`.
fn summary(all: &[Checked]) -> String {
    let met = all.iter().filter(|checked| checked.met()).count();
    match all.len() - met {
        _ if all.is_empty() => "no expectations\n".to_string(),
        0 => format!("{met} met\n"),
        not_met => format!("{met} met, {not_met} not met\n"),
    }
}

fn object(input: &Input, all: &[Checked]) -> Json {
    let met = all.iter().filter(|checked| checked.met()).count();
    let reports = |severity| Json::List(input.of(severity).map(report_json).collect());
    Json::Object(vec![
        ("command", Json::text("check")),
        ("file", input.json()),
        ("bits", Json::Number(input.taken.bits)),
        ("expectations", Json::List(all.iter().map(|checked| checked_json(input, checked)).collect())),
        ("warnings", reports(Severity::Warning)),
        ("notes", reports(Severity::Note)),
        ("met", Json::Number(met as u64)),
        ("not_met", Json::Number((all.len() - met) as u64)),
    ])
}

fn checked_json(input: &Input, checked: &Checked) -> Json {
    let mut members = vec![
        ("line", Json::Number(checked.expectation.place.line as u64)),
        ("text", Json::Text(phrase::expectation(&input.rules, checked.expectation))),
        ("met", Json::Bool(checked.met())),
    ];
    let told = ask::members(&input.rules, checked.expectation.question, &checked.told);
    members.extend(told.into_iter().filter(|(key, _)| ["verdict", "steps"].contains(key)));
    Json::Object(members)
}
