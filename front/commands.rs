//! The commands: what each makes of its words and options.

use crate::command_messages as messages;
use crate::help;
use crate::input::{contents, load, reason, text_of, Failure, Input};
use crate::json::Json;
use crate::model::Question;
use crate::names::nearest;
use crate::options::Options;
use crate::printed::{internal, Printed, NO_ANSWER};
use crate::report::{Place, Report, Severity};
use crate::words::{Token, Word};
use crate::{answer, ask, bits, check, colour, explain, failure, files, grammar, library, listing, question, replay, sha256, words};

/// The wholesaler's text.
const EXAMPLE: &str = include_str!("../examples/wholesaler.rules.txt");

type Answered = Result<Printed, Failure>;

/// What the words and options of the command line come to.
pub fn run(words: &[String], options: &Options) -> Printed {
    let (command, rest) = match words.split_first() {
        Some((command, rest)) => (command.as_str(), rest),
        None if options.help => ("help", words),
        None => return Printed { err: help::USAGE.to_string(), status: NO_ANSWER, ..Printed::default() },
    };
    answered(command, rest, options).unwrap_or_else(|failure| failure::printed(&failure, command, options))
}

fn answered(command: &str, words: &[String], options: &Options) -> Answered {
    if !help::COMMANDS.iter().any(|c| c.0 == command) {
        return Err(no_command(command));
    }
    if options.help && command != "help" {
        return help_for(Some(command), options);
    }
    if let Some(option) = options.foreign(command) {
        return Err(Failure::said(messages::option_of_others(command, option), Some(messages::see_help_of(command))));
    }
    match command {
        "ask" | "explain" => ask_or_explain(command, words, options),
        "check" => Ok(check_all(words, options)),
        "replay" => replay_steps(words, options),
        "assemble" => assemble(words, options),
        "list" => list(words, options),
        "example" => at_most(0, words, command).map(|_| text(command, EXAMPLE.to_string(), options)),
        "help" => help_for(at_most(1, words, command)?, options),
        _ => at_most(0, words, command).map(|_| version(options)),
    }
}

/// The first word, if there is one; there may be so many.
fn at_most<'w>(most: usize, words: &'w [String], command: &str) -> Result<Option<&'w str>, Failure> {
    if words.len() > most {
        return Err(not_so(command));
    }
    Ok(words.first().map(String::as_str))
}

fn no_command(word: &str) -> Failure {
    let meant = nearest(word, help::COMMANDS.iter().map(|c| c.0)).map(messages::meant);
    Failure::said(messages::no_command(word), meant.or_else(|| Some(messages::see_help())))
}

fn not_so(command: &str) -> Failure {
    Failure::said(messages::usage_of(command), Some(messages::see_help_of(command)))
}

fn help_for(command: Option<&str>, options: &Options) -> Answered {
    match help::of(command) {
        Some(found) => Ok(text("help", found, options)),
        None => Err(no_command(command.unwrap_or(""))),
    }
}

/// A text as it is, or as an object.
fn text(command: &str, text: String, options: &Options) -> Printed {
    let out = match options.json {
        true => format!("{}\n", Json::Object(vec![("command", Json::text(command)), ("text", Json::Text(text))])),
        false => text,
    };
    Printed { out, ..Printed::default() }
}

fn version(options: &Options) -> Printed {
    let [version, library] = help::version();
    let object = || vec![("command", Json::text("version")), ("version", Json::text(version)), ("library", Json::text(library))];
    let out = match options.json {
        true => format!("{}\n", Json::Object(object())),
        false => format!("rules {version}\nlibrary: SHA-256 of librights_c.a {library}\n"),
    };
    Printed { out, ..Printed::default() }
}

/// What a command makes of rules, after the warnings of their text. Where warnings are asked to be faults there is no more than these.
fn of_rules(command: &str, argument: Option<&str>, options: &Options, answer: impl Fn(&Input) -> Answered) -> Answered {
    if argument.is_none() && colour::is_terminal(0) {
        return Err(not_so(command));
    }
    let argument = argument.unwrap_or("-");
    if argument == "-" && options.names.as_deref() == Some("-") {
        return Err(Failure::said(messages::both_from_input(), None));
    }
    let mut input = load(argument, options.names.as_deref())?;
    if options.strict {
        input = input.strict()?;
    }
    // without its names a file has no expectations, and nothing would be checked
    if input.names_lost && command == "check" {
        input = input.strict()?;
    }
    let printed = answer(&input).unwrap_or_else(|failure| failure::printed(&failure, command, options));
    let in_object = options.json && ["check", "assemble"].contains(&command) && printed.status != NO_ANSWER;
    let warnings = if in_object { String::new() } else { failure::warnings(&input, options) };
    Ok(Printed { err: warnings + &printed.err, ..printed })
}

fn ask_or_explain(command: &str, words: &[String], options: &Options) -> Answered {
    let asked = words.get(1..).unwrap_or(&[]);
    let many = asked == ["-"];
    if many && options.question.is_some() {
        return Err(Failure::said(messages::two_questions(), None));
    }
    if many && command == "explain" {
        return Err(Failure::said(messages::one_question(), None));
    }
    if many && (words[0] == "-" || options.names.as_deref() == Some("-")) {
        return Err(Failure::said(messages::both_from_input(), None));
    }
    of_rules(command, words.first().map(String::as_str), options, |input| match command {
        _ if many => ask::run_many(input, &questions(input)?, options),
        "ask" => ask::run(input, question_of(input, asked, options)?, options),
        _ => explain::run(input, question_of(input, asked, options)?, options),
    })
}

/// The question of the command line, in words or by `--question`.
fn question_of(input: &Input, asked: &[String], options: &Options) -> Result<Question, Failure> {
    let hex = match &options.question {
        None => {
            let read = question::read(&input.rules, &question::of_arguments(asked));
            return read.map_err(|report| Failure::Question { file: input.json(), report });
        }
        Some(hex) => hex,
    };
    if !asked.is_empty() {
        return Err(Failure::said(messages::two_questions(), None));
    }
    let digit = |i: usize| hex.get(i..i + 1).and_then(|digit| u8::from_str_radix(digit, 16).ok());
    let bytes: Option<Vec<u8>> = (0..3).map(|i| Some(digit(2 * i)? << 4 | digit(2 * i + 1)?)).collect();
    match bytes {
        Some(bytes) if hex.len() == 6 => question::of_bytes(&input.rules, &bytes).ok_or_else(|| refused(input, &bytes)),
        _ => Err(Failure::said(messages::not_three_bytes(hex), None)),
    }
}

/// The number that the library gives to a question that names what is not there.
fn refused(input: &Input, question: &[u8]) -> Failure {
    match library::analyse(&input.bytes, question) {
        Err(number) => input.refused(number),
        Ok(_) => internal("the library answers a question that names what is not there"),
    }
}

/// The questions of standard input, one a line; empty lines and comments are passed over.
fn questions(input: &Input) -> Result<Vec<Question>, Failure> {
    let (name, bytes) = contents("-")?;
    let text = text_of(&name, bytes)?;
    let read: Vec<Result<Question, Report>> = lines(&text).iter().map(|line| question::read(&input.rules, line)).collect();
    let reports: Vec<Report> = read.iter().filter_map(|read| read.as_ref().err().cloned()).collect();
    if !reports.is_empty() {
        return Err(Failure::Faults { name, text, reports });
    }
    if read.is_empty() {
        return Err(Failure::said(messages::no_questions(), Some(messages::question_form())));
    }
    Ok(read.into_iter().flatten().collect())
}

/// The words of each line that has some; `End` closes each.
pub fn lines(text: &str) -> Vec<Vec<Word>> {
    let mut found: Vec<Vec<Word>> = Vec::new();
    for word in words::words(text) {
        match found.last_mut() {
            Some(line) if !word.first => line.push(word),
            _ => found.push(vec![word]),
        }
    }
    found.pop();
    for line in &mut found {
        let last = line[line.len() - 1].place;
        let place = Place { column: last.column + last.length, length: 1, ..last };
        line.push(Word { token: Token::End, place, first: false });
    }
    found
}

/// Each text or file by itself; the gravest exit status counts.
fn check_all(words: &[String], options: &Options) -> Printed {
    let standard_input = ["-".to_string()];
    let names = if words.is_empty() { &standard_input } else { words };
    let mut all = Printed::default();
    let mut objects = Vec::new();
    for name in names {
        let checked = of_rules("check", Some(name), options, |input| {
            // a file that no question is answered of is refused, with expectations or without
            answer::never(&input.bytes, Question::SOME).map_err(|number| input.refused(number))?;
            Ok(check::run(input, options))
        });
        let checked = checked.unwrap_or_else(|failure| failure::printed(&failure, "check", options));
        if names.len() > 1 && !options.json {
            all.out += &format!("{}:\n", failure::clean(name));
        }
        objects.push(checked.out.trim_end().to_string());
        all.out += &checked.out;
        all.err += &checked.err;
        all.status = all.status.max(checked.status);
    }
    if names.len() > 1 && options.json {
        all.out = format!("{{\"command\":\"check\",\"checks\":[{}]}}\n", objects.join(","));
    }
    all
}

fn replay_steps(words: &[String], options: &Options) -> Answered {
    let (steps, asked) = match words {
        [_, steps] => (steps, options.question.as_ref().map(|_| &[][..])),
        [_, steps, word, asked @ ..] if word == "for" => (steps, Some(asked)),
        _ => return Err(not_so("replay")),
    };
    if steps == "-" && (words[0] == "-" || options.names.as_deref() == Some("-")) {
        return Err(Failure::said(messages::both_from_input(), None));
    }
    of_rules("replay", words.first().map(String::as_str), options, |input| {
        let question = asked.map(|asked| question_of(input, asked, options)).transpose()?;
        let (name, bytes) = contents(steps)?;
        Ok(replay::run(input, &name, &text_of(&name, bytes)?, question, options))
    })
}

fn assemble(words: &[String], options: &Options) -> Answered {
    of_rules("assemble", at_most(1, words, "assemble")?, options, |input| {
        if input.text.is_none() {
            return Err(Failure::said(messages::is_a_file(&input.name), None));
        }
        let mut printed = Printed::default();
        match &options.output {
            Some(path) => {
                save(path, &input.bytes, input, options)?;
                printed.out = format!("{}: {} bytes, SHA-256 {}\n", failure::clean(path), input.bytes.len(), sha256::hex(&input.bytes));
            }
            None if options.json || colour::is_terminal(1) => return Err(Failure::said(messages::bytes_on_a_terminal(), None)),
            None => printed.data = input.bytes.clone(),
        }
        if options.json {
            let warnings = input.of(Severity::Warning).map(failure::report_json).collect();
            let object = vec![("command", Json::text("assemble")), ("file", input.json()), ("warnings", Json::List(warnings))];
            printed.out = format!("{}\n", Json::Object(object));
        } else if options.quiet {
            printed.out.clear();
        }
        Ok(printed)
    })
}

fn list(words: &[String], options: &Options) -> Answered {
    of_rules("list", at_most(1, words, "list")?, options, |input| {
        if input.text.is_some() {
            return Err(Failure::said(messages::is_a_text(&input.name), None));
        }
        let text = listing::text(&input.rules);
        if grammar::read(&text).0.map(|rules| bits::bytes(&rules)).as_ref() != Some(&input.bytes) {
            internal("a listing assembles to other bytes");
        }
        if let Some(path) = &options.output {
            save(path, text.as_bytes(), input, options)?;
        }
        let out = match (options.json, &options.output) {
            (true, _) => {
                let object = vec![("command", Json::text("list")), ("file", input.json()), ("text", Json::Text(text))];
                format!("{}\n", Json::Object(object))
            }
            (false, Some(_)) => String::new(),
            (false, None) => text,
        };
        Ok(Printed { out, ..Printed::default() })
    })
}

/// Writes a file, but not over one that was read.
fn save(path: &str, bytes: &[u8], input: &Input, options: &Options) -> Result<(), Failure> {
    let written = std::fs::canonicalize(path).ok();
    for read in [input.name.as_str(), "/dev/stdin"].into_iter().chain(options.names.as_deref()) {
        if written.is_some() && written == std::fs::canonicalize(read).ok() {
            return Err(Failure::said(messages::own_input(path), None));
        }
    }
    files::write_whole(path, bytes).map_err(|error| Failure::said(messages::unwritable(path, &reason(&error)), None))
}
