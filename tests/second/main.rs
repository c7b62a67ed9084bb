//! The command-line tool of the second program, for the tests alone: nothing here is proved, and no command of bin/
//! uses it. It reads standard input and writes standard output:
//!
//!     second rights     question and file in, the verdict out
//!     second assemble   readable rules in, the file out
//!     second list       a file in, readable rules out
//!     second records    the records of tests/vectors/make.py in, a line for each out
//!     second selftest   nothing in, the outcome of the tests out

#![deny(warnings)]

#[path = "mod.rs"]
mod second;
mod records;
mod selftest;

use second::analyse::{analyse, Verdict};
use second::text::{assemble, list};
use std::io::{Read, Write};
use std::process::ExitCode;

/// How many rows the paper's program uses.
const ROWS: usize = 8192;

/// The verdict as the paper's program prints it; the rows of a leak and their count are left out.
fn rights(input: &[u8]) -> String {
    if input.len() < 3 {
        return "REFUSED 1\n".to_string();
    }
    let (question, file) = input.split_at(3);
    let answer = analyse(file, question, ROWS);
    match answer.verdict {
        Verdict::Refused => format!("REFUSED {}\n", answer.number),
        Verdict::Safe => format!("SAFE {} {}\n", answer.pairs, answer.values),
        Verdict::Leak => format!("LEAK {} {}\n", answer.pairs, answer.values),
    }
}

/// The file of a text, or a message.
fn assembled(input: &[u8]) -> Result<Vec<u8>, String> {
    let text = std::str::from_utf8(input).map_err(|_| "the text is not UTF-8".to_string())?;
    assemble(text).map_err(|(line, reason)| format!("line {line}: {reason}"))
}

/// The text of a file, or a message.
fn listed(input: &[u8]) -> Result<Vec<u8>, String> {
    let text = list(input).map_err(|number| format!("REFUSED {number}"))?;
    Ok(text.into_bytes())
}

fn input() -> Vec<u8> {
    let mut bytes = Vec::new();
    std::io::stdin().read_to_end(&mut bytes).expect("standard input can be read");
    bytes
}

fn main() -> ExitCode {
    let command = std::env::args().nth(1).unwrap_or_default();
    let outcome = match command.as_str() {
        "rights" => Ok(rights(&input()).into_bytes()),
        "assemble" => assembled(&input()),
        "list" => listed(&input()),
        "records" => Ok(records::lines(&input()).into_bytes()),
        "selftest" => selftest::selftest(),
        _ => Err("use: second rights | assemble | list | records | selftest".to_string()),
    };
    match outcome {
        Ok(output) => {
            std::io::stdout().write_all(&output).expect("standard output can be written");
            ExitCode::SUCCESS
        }
        Err(message) => {
            eprintln!("{message}");
            ExitCode::FAILURE
        }
    }
}
