//! `rules ask`: the verdict, and the steps of a leak.

use crate::answer::{answer, Answer, Step};
use crate::colour::{paint, Style};
use crate::input::{Failure, Input};
use crate::json::Json;
use crate::library;
use crate::model::{Question, Rules, Who};
use crate::options::Options;
use crate::phrase;
use crate::printed::{Printed, FOUND, GOOD};
use crate::question;

/// One question: the sentence, the steps, what was counted.
pub fn run(input: &Input, question: Question, options: &Options) -> Result<Printed, Failure> {
    let told = answer(&input.rules, &input.bytes, question).map_err(|number| input.refused(number))?;
    let status = if told.never() { GOOD } else { FOUND };
    if options.json {
        let object = [vec![("command", Json::text("ask")), ("file", input.json())], members(&input.rules, question, &told)].concat();
        return Ok(Printed { out: format!("{}\n", Json::Object(object)), status, ..Printed::default() });
    }
    let mut out = sentence(&input.rules, question, &told, options.colour);
    if !options.quiet {
        if !told.never() {
            out += &format!("\n{}", step_lines(told.steps(), 2));
        }
        out += &format!("\n{}", counted(&input.rules, question, &told));
        out += &raw(question, &told, 0, options);
    }
    Ok(Printed { out, status, ..Printed::default() })
}

/// Many questions: a line for each, and one object for all with `--json`.
pub fn run_many(input: &Input, questions: &[Question], options: &Options) -> Result<Printed, Failure> {
    let mut printed = Printed::default();
    let mut objects = Vec::new();
    for question in questions {
        let told = answer(&input.rules, &input.bytes, *question).map_err(|number| input.refused(number))?;
        if !told.never() {
            printed.status = FOUND;
        }
        objects.push(Json::Object(members(&input.rules, *question, &told)));
        printed.out += &format!("{}  {}\n", verdict_word(&told, options.colour), question::words_of(&input.rules, *question));
        printed.out += &raw(*question, &told, 2, options);
    }
    if options.json {
        let object = Json::Object(vec![("command", Json::text("ask")), ("file", input.json()), ("answers", Json::List(objects))]);
        printed.out = format!("{object}\n");
    }
    Ok(printed)
}

/// The verdict as a column: `Never`, `Can happen, in 4 steps`.
fn verdict_word(told: &Answer, colour: bool) -> String {
    let width = 24;
    if told.never() {
        return format!("{}{}", paint(colour, Style::Never, "Never"), " ".repeat(width - 5));
    }
    let after = format!(", in {}", counted_steps(told.steps().len()));
    format!("{}{after:<rest$}", paint(colour, Style::CanHappen, "Can happen"), rest = width - 10)
}

/// `1 step`, `4 steps`.
pub fn counted_steps(steps: usize) -> String {
    format!("{steps} step{}", if steps == 1 { "" } else { "s" })
}

/// The answer's first line.
pub fn sentence(rules: &Rules, question: Question, told: &Answer, colour: bool) -> String {
    let asked = format!("{} on {}", phrase::name(&rules.permissions[question.permission].name), phrase::item(rules, question.item));
    let who = phrase::who(rules, question.who);
    if told.never() {
        let nobody = match question.who {
            Who::User(_) => format!("no session of {who} is granted"),
            Who::Session(_) => format!("{who} is never granted"),
            Who::Anyone => "nobody is granted".to_string(),
        };
        return format!("{}: {nobody} {asked}, after any run of work.\n", paint(colour, Style::Never, "Never"));
    }
    let who = if question.who == Who::Anyone { "someone".to_string() } else { who };
    let steps = counted_steps(told.steps().len());
    format!("{}, in {steps}: {who} is granted {asked}.\n", paint(colour, Style::CanHappen, "Can happen"))
}

/// Steps with their numbers, each on a line.
pub fn step_lines(steps: &[Step], indent: usize) -> String {
    let width = steps.len().to_string().len();
    steps.iter().enumerate().map(|(i, step)| format!("{}{:>width$}  {}\n", " ".repeat(indent), i + 1, step.text)).collect()
}

/// The answer's last line.
pub fn counted(rules: &Rules, question: Question, told: &Answer) -> String {
    let item = question.item.map_or("an item".to_string(), |_| phrase::item(rules, question.item));
    let pairs = format!("{} pair{}", told.pairs, if told.pairs == 1 { "" } else { "s" });
    let values = match told.values {
        0 => "there can be no item".to_string(),
        1 => format!("{item} can have 1 value"),
        n => format!("{item} can have {n} values"),
    };
    format!("Counted: {pairs} of user and session value can be open; {values}.\n")
}

/// With `-v`, the question's bytes and the rows.
pub fn raw(question: Question, told: &Answer, indent: usize, options: &Options) -> String {
    if !options.verbose {
        return String::new();
    }
    let rows = told.steps().iter().map(|step| row_line(step.row, indent)).collect::<String>();
    format!("{}Question: {}\n{rows}", " ".repeat(indent), question::hex(question))
}

/// A row as `bin/rights` prints it.
pub fn row_line(row: u64, indent: usize) -> String {
    let [kind, actor, target, value] = library::parts(row);
    format!("{}Row: {kind} {actor} {target} {value}\n", " ".repeat(indent))
}

/// What an object says of a question and its answer.
pub fn members(rules: &Rules, question: Question, told: &Answer) -> Vec<(&'static str, Json)> {
    vec![
        ("question", question_json(rules, question)),
        ("verdict", Json::text(if told.never() { "never" } else { "can happen" })),
        ("pairs", Json::Number(told.pairs)),
        ("values", Json::Number(told.values)),
        ("steps", Json::List(told.steps().iter().map(|step| Json::Object(step_json(step))).collect())),
    ]
}

pub fn question_json(rules: &Rules, question: Question) -> Json {
    let (who, name, number) = match question.who {
        Who::Session(n) => ("session", Json::text(&rules.sessions[n].name), Json::Number(n as u64)),
        Who::User(n) => ("user", Json::text(&rules.users[n].name), Json::Number(n as u64)),
        Who::Anyone => ("anyone", Json::Null, Json::Null),
    };
    Json::Object(vec![
        ("who", Json::text(who)),
        ("name", name),
        ("number", number),
        ("permission", Json::text(&rules.permissions[question.permission].name)),
        ("item", question.item.map_or(Json::Null, |n| Json::text(&rules.items[n].name))),
        ("bytes", Json::text(&question::hex(question))),
    ])
}

pub fn step_json(step: &Step) -> Vec<(&'static str, Json)> {
    vec![("row", row_json(step.row)), ("text", Json::text(&step.text))]
}

pub fn row_json(row: u64) -> Json {
    Json::List(library::parts(row).iter().map(|part| Json::Number(*part)).collect())
}
