//! `rules replay`: carries out steps in words up to the first that is refused, and says why it is.

use crate::answer::Step;
use crate::ask::{self, question_json, row_json};
use crate::failure;
use crate::input::Input;
use crate::json::Json;
use crate::library;
use crate::model::{Class, Question};
use crate::numbers;
use crate::options::Options;
use crate::parts;
use crate::phrase;
use crate::printed::{internal, Printed, FOUND, GOOD, NO_ANSWER};
use crate::question;
use crate::report::Report;
use crate::step_parts::{self, Part, FALSE};
use crate::steps::Run;
use crate::table;
use crate::words::{Token, Word};

/// The library's number of a step whose actor or target is absent, closed or another user's.
const ABSENT: u32 = 13;
/// The library's number of steps that end with no grant that fits the question.
const NO_FIT: u32 = 17;

/// What was carried out, and how it ended.
struct Replayed {
    /// How many steps the text has.
    steps: usize,
    done: Vec<Step>,
    end: End,
}

enum End {
    /// All steps were carried out; with a question, whether the last one is what was asked.
    All(Option<bool>),
    Refused(Refusal),
    /// A line that is no step.
    Unread(Report),
}

/// A refused step, the library's number, and why in words.
struct Refusal {
    step: Step,
    number: u32,
    words: String,
    parts: Vec<Part>,
}

pub fn run(input: &Input, steps_name: &str, steps_text: &str, question: Option<Question>, options: &Options) -> Printed {
    let replayed = replayed(input, steps_text, question);
    let out = if options.json { format!("{}\n", object(input, question, &replayed)) } else { words(input, question, &replayed, options) };
    let mut printed = Printed { out, ..Printed::default() };
    printed.status = match &replayed.end {
        End::All(None | Some(true)) => GOOD,
        End::All(Some(false)) | End::Refused(_) => FOUND,
        End::Unread(report) => {
            if !options.json {
                printed.err = failure::lines(steps_name, steps_text, report, options.error_colour);
            }
            NO_ANSWER
        }
    };
    printed
}

fn replayed(input: &Input, text: &str, question: Option<Question>) -> Replayed {
    let lines: Vec<Vec<Word>> = crate::commands::lines(text).into_iter().filter(|line| !is_passed_over(line)).collect();
    let mut run = Run::start(&input.rules, &input.bytes, lines.len());
    let mut done: Vec<Step> = Vec::new();
    for line in &lines {
        let (row, name) = match run.read(line) {
            Ok(read) => read,
            Err(report) => return Replayed { steps: lines.len(), done, end: End::Unread(report) },
        };
        let step = Step { row, text: run.words_with(row, name.as_deref()) };
        if let Err(number) = run.carry_out(row, name) {
            return Replayed { steps: lines.len(), done, end: End::Refused(refusal(&run, step, number)) };
        }
        done.push(step);
    }
    let rows: Vec<u64> = done.iter().map(|step| step.row).collect();
    Replayed { steps: lines.len(), done, end: End::All(question.map(|question| fits(input, question, &rows))) }
}

/// The lines that an answer has besides its steps.
fn is_passed_over(line: &[Word]) -> bool {
    let begins = |front: &[Token]| line.iter().map(|word| &word.token).take(front.len()).eq(front);
    let name = |word: &str| Token::Name(word.to_string());
    let titled = |title: &&str| begins(&[name(title), Token::Mark(":")]);
    begins(&[name("Can"), name("happen"), Token::Mark(",")]) || ["Counted", "Question", "Row"].iter().any(titled)
}

/// Whether the library says that the last of these rows is a grant that fits.
fn fits(input: &Input, question: Question, rows: &[u64]) -> bool {
    let cells = input.rules.sessions.len().max(input.rules.items.len()) + rows.len();
    match library::replay(&input.bytes, &question::bytes(question), rows, cells) {
        Ok(()) => true,
        Err(NO_FIT) => false,
        Err(number) => internal(&format!("steps that were carried out do not replay: {number}")),
    }
}

fn refusal(run: &Run, step: Step, number: u32) -> Refusal {
    if number == FALSE {
        if let Some(decided) = step_parts::refused(run, step.row) {
            let words = format!("{} is false", parts::formula_words(run.rules, decided.heading));
            return Refusal { step, number, words, parts: decided.parts };
        }
    }
    let absent = if number == ABSENT { absent(run, step.row) } else { None };
    Refusal { step, number, words: absent.unwrap_or_else(|| numbers::words(number).to_string()), parts: Vec::new() }
}

/// What is absent where the library says that something is: a session that is closed, or that another user opened.
fn absent(run: &Run, row: u64) -> Option<String> {
    let [kind, actor, target, _] = library::parts(row);
    let closed = |session| Some(format!("{} is closed", run.name(Class::Session, session)));
    match kind {
        library::CLOSE | library::CHANGE_SESSION => match run.session(target) {
            None => closed(target),
            Some((user, _)) if user as u64 != actor => {
                let [user, actor] = [user as u64, actor].map(|user| run.name(Class::User, user));
                Some(format!("{} is {user}'s, not {actor}'s", run.name(Class::Session, target)))
            }
            _ => None,
        },
        library::MAKE | library::CHANGE_ITEM | library::ACCESS if run.session(actor).is_none() => closed(actor),
        _ => None,
    }
}

fn words(input: &Input, question: Option<Question>, replayed: &Replayed, options: &Options) -> String {
    let mut out = String::new();
    let width = replayed.steps.to_string().len();
    if !options.quiet {
        for (i, step) in replayed.done.iter().enumerate() {
            out += &format!("  {:>width$}  done     {}\n", i + 1, step.text);
        }
    }
    match &replayed.end {
        End::Refused(refusal) => {
            out += &format!("  {:>width$}  refused  {}\n", replayed.done.len() + 1, refusal.step.text);
            out += &format!("{}{}: {}\n", " ".repeat(width + 12), refusal.number, refusal.words);
            out += &table::lines(width + 14, &step_parts::rows(&refusal.parts, judged_cells));
        }
        End::All(fits) => out += &ended_words(input, question, *fits, replayed.done.is_empty(), options),
        End::Unread(_) => {}
    }
    if options.verbose {
        let refused = match &replayed.end {
            End::Refused(refusal) => Some(refusal.step.row),
            _ => None,
        };
        out += &replayed.done.iter().map(|step| step.row).chain(refused).map(|row| ask::row_line(row, 0)).collect::<String>();
    }
    out
}

/// The values of a part, and whether it is true.
fn judged_cells(part: &Part) -> Vec<String> {
    vec![part.values.clone().unwrap_or_default(), part.holds.to_string()]
}

/// The last line, where all steps were carried out.
fn ended_words(input: &Input, question: Option<Question>, fits: Option<bool>, empty: bool, options: &Options) -> String {
    let rules = &input.rules;
    match (question, fits) {
        (Some(question), Some(true)) if !options.quiet => {
            let permission = phrase::name(&rules.permissions[question.permission].name);
            let (who, item) = (phrase::who(rules, question.who), phrase::item(rules, question.item));
            format!("The last step is what was asked: {who} {permission} on {item}.\n")
        }
        (Some(_), Some(false)) if empty => format!("{NO_FIT}: {}\n", numbers::words(NO_FIT)),
        (Some(question), Some(false)) => format!("{NO_FIT}: the last step is not a grant that fits: {}\n", question::words_of(rules, question)),
        _ if empty && !options.quiet => "no steps\n".to_string(),
        _ => String::new(),
    }
}

fn object(input: &Input, question: Option<Question>, replayed: &Replayed) -> Json {
    let mut steps: Vec<Json> = replayed.done.iter().map(|step| step_json(step, true)).collect();
    let (mut refused, mut fits, mut errors) = (Json::Null, Json::Null, None);
    match &replayed.end {
        End::All(fit) => fits = fit.map_or(Json::Null, Json::Bool),
        End::Refused(refusal) => {
            steps.push(step_json(&refusal.step, false));
            refused = refusal_json(refusal, steps.len());
        }
        End::Unread(report) => errors = Some(Json::List(vec![failure::report_json(report)])),
    }
    let question = question.map_or(Json::Null, |question| question_json(&input.rules, question));
    let members = vec![("command", Json::text("replay")), ("file", input.json()), ("question", question)];
    let ended = vec![("steps", Json::List(steps)), ("refused", refused), ("fits", fits)];
    Json::Object([members, ended, errors.map_or(Vec::new(), |errors| vec![("errors", errors)])].concat())
}

fn step_json(step: &Step, done: bool) -> Json {
    Json::Object(vec![("row", row_json(step.row)), ("text", Json::text(&step.text)), ("done", Json::Bool(done))])
}

fn refusal_json(refusal: &Refusal, step: usize) -> Json {
    let parts = refusal.parts.iter().map(|part| step_parts::json(part, |part| vec![("true", Json::Bool(part.holds))]));
    Json::Object(vec![
        ("step", Json::Number(step as u64)),
        ("number", Json::Number(u64::from(refusal.number))),
        ("words", Json::text(&refusal.words)),
        ("parts", Json::List(parts.collect())),
    ])
}
