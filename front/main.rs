//! `rules`: questions about rights, and their answers, in words. It decides nothing: each verdict, refusal and step is a call of the library.

mod answer;
mod ask;
mod asked_parts;
mod attributes;
mod bits;
mod check;
mod colour;
mod command_messages;
mod commands;
mod comparison;
mod differing;
mod expect;
mod explain;
mod failure;
mod faults;
mod file;
mod files;
mod formula;
mod formula_messages;
mod grammar;
mod help;
mod holders;
mod input;
mod json;
// Hosts take all of it; this program does not need all.
#[allow(dead_code)]
mod library;
mod list_messages;
mod listing;
mod lists;
mod messages;
mod model;
mod names;
mod numbers;
mod options;
mod parts;
mod phrase;
mod place;
mod place_messages;
mod printed;
mod progress;
mod question;
mod reader;
mod replay;
mod report;
mod sha256;
mod signs;
mod step_parts;
mod step_reading;
mod steps;
mod table;
mod unread;
mod warnings;
mod words;

use input::Failure;
use options::Options;
use printed::{Printed, NO_ANSWER};
use std::io::Write;

fn main() {
    std::panic::set_hook(Box::new(|panic| printed::internal(&panic.to_string())));
    let arguments: Result<Vec<String>, _> = std::env::args_os().skip(1).map(|argument| argument.into_string()).collect();
    let printed = match arguments {
        Ok(arguments) => answered(arguments),
        Err(other) => {
            let message = command_messages::bad_argument(&other.to_string_lossy());
            failure::printed(&Failure::said(message, None), "", &Options::default())
        }
    };
    std::process::exit(i32::from(write(&printed)));
}

fn answered(arguments: Vec<String>) -> Printed {
    let json = arguments.iter().any(|argument| argument == "--json");
    let command = arguments.iter().find(|argument| !argument.starts_with('-')).cloned().unwrap_or_default();
    match options::read(arguments.into_iter()) {
        Ok((options, words)) => commands::run(&words, &options),
        Err((message, help)) => failure::printed(&Failure::said(message, help), &command, &Options::of_json(json)),
    }
}

/// Writes what a command prints, and gives the exit status. A reader that went away is no fault; output that cannot be written is no answer.
fn write(printed: &Printed) -> u8 {
    let _ = std::io::stderr().write_all(printed.err.as_bytes());
    let mut out = std::io::stdout().lock();
    let written = out.write_all(&printed.data).and_then(|_| out.write_all(printed.out.as_bytes())).and_then(|_| out.flush());
    match written {
        Err(error) if error.kind() != std::io::ErrorKind::BrokenPipe => {
            let _ = writeln!(std::io::stderr(), "rules: {}", command_messages::unwritable("standard output", &input::reason(&error)));
            NO_ANSWER
        }
        _ => printed.status,
    }
}
