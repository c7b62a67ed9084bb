//! `rules explain`: the answer, and why: the parts of the formulas that decide.

use crate::answer::{answer, Answer};
use crate::ask;
use crate::asked_parts::{self, Below};
use crate::input::{Failure, Input};
use crate::json::Json;
use crate::model::{Heading, Question, Who};
use crate::options::Options;
use crate::parts;
use crate::phrase;
use crate::printed::{internal, Printed, FOUND, GOOD};
use crate::step_parts::{self, Decided, Part};
use crate::steps::Run;
use crate::table;

pub fn run(input: &Input, question: Question, options: &Options) -> Result<Printed, Failure> {
    let told = answer(&input.rules, &input.bytes, question).map_err(|number| input.refused(number))?;
    let status = if told.never() { GOOD } else { FOUND };
    let out = if options.json { format!("{}\n", object(input, question, &told)) } else { words(input, question, &told, options) };
    Ok(Printed { out, status, ..Printed::default() })
}

fn words(input: &Input, question: Question, told: &Answer, options: &Options) -> String {
    let sentence = ask::sentence(&input.rules, question, told, options.colour);
    if options.quiet {
        return sentence;
    }
    let why = if told.never() { never_words(input, question, told) } else { steps_words(input, told) };
    let counted = ask::counted(&input.rules, question, told);
    format!("{sentence}\n{why}\n{counted}{}", ask::raw(question, told, 0, options))
}

/// What the permission's formula needs, each part asked alone; or that it is never asked.
fn never_words(input: &Input, question: Question, told: &Answer) -> String {
    if asked_parts::never_anyway(&input.rules, question) {
        let formula = parts::formula_words(&input.rules, Heading::Allow(question.permission));
        let lacking = match (told.values, question.who) {
            (0, _) => "there can be no item".to_string(),
            (_, Who::User(_)) => format!("no session of {} can be open", phrase::who(&input.rules, question.who)),
            _ => "no session can be open".to_string(),
        };
        return format!("  whatever {formula} says: {lacking}\n");
    }
    let below = asked_parts::of(&input.rules, &input.bytes, question);
    let formula = parts::formula_words(&input.rules, Heading::Allow(question.permission));
    let all = if below.all { "all" } else { "one" };
    format!("  {formula} needs {all} of these; asked one by one:\n{}", table::lines(2, &below.rows()))
}

/// The steps, and under each its formula and parts with the values in.
fn steps_words(input: &Input, told: &Answer) -> String {
    let width = told.steps().len().to_string().len();
    let mut out = String::new();
    for (i, (step, decided)) in told.steps().iter().zip(decided_steps(input, told)).enumerate() {
        out += &format!("  {:>width$}  {}\n", i + 1, step.text);
        if let Some(decided) = decided {
            let indent = width + 6;
            out += &format!("{}by {}\n", " ".repeat(indent), parts::formula_words(&input.rules, decided.heading));
            out += &table::lines(indent + 2, &step_parts::rows(&decided.parts, |part| part.values.iter().cloned().collect()));
        }
    }
    out
}

/// What decided each step of a leak, as a run by the library goes on.
fn decided_steps(input: &Input, told: &Answer) -> Vec<Option<Decided>> {
    let mut run = Run::start(&input.rules, &input.bytes, told.steps().len());
    let mut all = Vec::new();
    for step in told.steps() {
        all.push(step_parts::carried_out(&run, step.row));
        if let Err(number) = run.carry_out(step.row, None) {
            internal(&format!("a step of an answer is refused: {number}: {}", step.text));
        }
    }
    all
}

fn object(input: &Input, question: Question, told: &Answer) -> Json {
    let mut members = vec![("command", Json::text("explain")), ("file", input.json())];
    members.extend(ask::members(&input.rules, question, told).into_iter().filter(|(key, _)| *key != "steps"));
    let steps = told.steps().iter().zip(decided_steps(input, told));
    let step = |(step, decided): (_, Option<Decided>)| Json::Object([ask::step_json(step), decided_json(input, decided)].concat());
    members.push(("steps", Json::List(steps.map(step).collect())));
    let asked = told.never() && !asked_parts::never_anyway(&input.rules, question);
    let below = if asked { asked_parts::of(&input.rules, &input.bytes, question) } else { Below::default() };
    members.push(("parts", below.json()));
    members.push(("together", below.together_json()));
    Json::Object(members)
}

/// The formula that decided a step, the line on which it begins, and its parts.
fn decided_json(input: &Input, decided: Option<Decided>) -> Vec<(&'static str, Json)> {
    let (formula, line, parts) = match &decided {
        None => (Json::Null, Json::Null, Vec::new()),
        Some(Decided { heading, parts }) => {
            let line = parts::line(&input.rules, *heading).map_or(Json::Null, |line| Json::Number(line as u64));
            (Json::text(&phrase::heading(&input.rules, *heading)), line, parts.iter().map(part_json).collect())
        }
    };
    vec![("formula", formula), ("line", line), ("parts", Json::List(parts))]
}

fn part_json(part: &Part) -> Json {
    step_parts::json(part, |_| Vec::new())
}
