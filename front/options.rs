//! The command line.

use crate::colour::{wanted, Choice};
use crate::command_messages as messages;
use crate::names::nearest;

#[derive(Default)]
pub struct Options {
    pub json: bool,
    /// Whether standard output is coloured.
    pub colour: bool,
    /// Whether standard error is.
    pub error_colour: bool,
    pub quiet: bool,
    pub verbose: bool,
    pub strict: bool,
    /// A text whose names a rule file gets.
    pub names: Option<String>,
    /// Where the result is written, instead of standard output.
    pub output: Option<String>,
    /// A question as three bytes in hex.
    pub question: Option<String>,
    pub help: bool,
    /// The options that were given: the longest name of each, and as it was written.
    given: Vec<(&'static str, String)>,
}

impl Options {
    /// The options of a command line that cannot be read: at most `--json`.
    pub fn of_json(json: bool) -> Options {
        Options { json, ..Options::default() }
    }

    /// The first option that was given and that a command does not have.
    pub fn foreign(&self, command: &str) -> Option<&str> {
        let has = |option: &str| match option {
            "--names" => ["ask", "explain", "check", "replay", "list"].contains(&command),
            "--strict" => ["ask", "explain", "check", "replay", "assemble"].contains(&command),
            "--output" => ["assemble", "list"].contains(&command),
            "--question" => ["ask", "explain", "replay"].contains(&command),
            _ => true,
        };
        self.given.iter().find(|(option, _)| !has(option)).map(|(_, written)| written.as_str())
    }
}

/// The words of the command line that are no options.
pub type Arguments = Vec<String>;

/// The options by their longest names, and how else they are written.
const OPTIONS: [(&str, &str); 9] = [
    ("--json", "--json"),
    ("--colour", "--color"),
    ("--quiet", "-q"),
    ("--verbose", "-v"),
    ("--strict", "--strict"),
    ("--names", "--names"),
    ("--output", "-o"),
    ("--question", "--question"),
    ("--help", "-h"),
];

/// Options and other words, or what is wrong with them. An option's value stands after it or after `=`; `--` ends the options.
pub fn read(arguments: impl Iterator<Item = String>) -> Result<(Options, Arguments), (String, Option<String>)> {
    let mut options = Options::default();
    let mut choice = Choice::Auto;
    let mut rest = Vec::new();
    let mut arguments = arguments;
    while let Some(argument) = arguments.next() {
        if argument == "--" {
            rest.extend(arguments);
            break;
        }
        if !argument.starts_with('-') || argument == "-" {
            rest.push(argument);
            continue;
        }
        let (flag, mut given) = match argument.split_once('=') {
            Some((flag, value)) if flag.starts_with("--") => (flag.to_string(), Some(value.to_string())),
            _ => (argument, None),
        };
        let option = match OPTIONS.iter().find(|(long, other)| flag == *long || flag == *other) {
            Some((long, _)) => *long,
            None => return Err((messages::no_option(&flag), nearest(&flag, OPTIONS.iter().map(|o| o.0)).map(messages::meant))),
        };
        options.given.push((option, flag.clone()));
        let mut value = || given.take().or_else(|| arguments.next()).ok_or_else(|| (messages::option_wants(&flag), None));
        match option {
            "--json" => options.json = true,
            "--quiet" => options.quiet = true,
            "--verbose" => options.verbose = true,
            "--strict" => options.strict = true,
            "--help" => options.help = true,
            "--names" => options.names = Some(value()?),
            "--output" => options.output = Some(value()?).filter(|path| path != "-"),
            "--question" => options.question = Some(value()?),
            _ => choice = colour_choice(&value()?)?,
        }
        if given.is_some() {
            return Err((messages::option_takes_none(&flag), None));
        }
    }
    options.colour = wanted(choice, 1) && !options.json;
    options.error_colour = wanted(choice, 2);
    Ok((options, rest))
}

fn colour_choice(word: &str) -> Result<Choice, (String, Option<String>)> {
    match word {
        "auto" => Ok(Choice::Auto),
        "always" => Ok(Choice::Always),
        "never" => Ok(Choice::Never),
        _ => Err((messages::no_colour_choice(word), Some(messages::colour_choices()))),
    }
}
