//! What a command prints, and its exit status.

use std::io::Write;

/// Nothing is wrong: `Never`, all expectations met, all steps done, written.
pub const GOOD: u8 = 0;
/// It can happen, an expectation is not met, a step was refused.
pub const FOUND: u8 = 1;
/// There is no answer: usage, an unreadable file, a bad text, a refused file or question.
pub const NO_ANSWER: u8 = 2;
/// A check of what is not proved failed.
pub const INTERNAL: u8 = 3;

#[derive(Default)]
pub struct Printed {
    /// Bytes for standard output, before `out`.
    pub data: Vec<u8>,
    /// Standard output.
    pub out: String,
    /// Standard error.
    pub err: String,
    pub status: u8,
}

/// Ends the program: one of its own checks failed, so nothing that it would say can be relied on.
pub fn internal(what: &str) -> ! {
    // whoever cannot be told gets the exit status
    let _ = writeln!(std::io::stderr(), "internal error: {what}");
    std::process::exit(i32::from(INTERNAL))
}
