//! The tests of the second program. What they expect is taken from the paper, from the settled readings of it and from
//! the source documents, or is worked out by hand from these; never from what a program printed.

mod analysing;
mod counting;
mod files;
mod list_texts;
mod lists;
mod named;
mod random;
mod replaying;
mod sampled;
mod speed;
mod stepping;
mod texts;
mod writing;

use std::fmt::Debug;

/// The counter file of the paper.
pub const COUNTER: [u8; 33] = [
    0x11, 0x11, 0x00, 0x00, 0x80, 0x84, 0x08, 0x40, 0x08, 0x08, 0x06, 0x50, 0x00, 0x00, 0x65, 0x00, 0x00, 0x05, 0x60,
    0x28, 0x00, 0x62, 0x80, 0x80, 0x0E, 0x28, 0x08, 0x15, 0x82, 0x84, 0xC0, 0x00, 0x40,
];

/// How many checks were made, and what the failed ones say.
pub struct Checks {
    made: u32,
    failed: Vec<String>,
}

impl Checks {
    /// Checks that what was found is what was expected.
    pub fn same<T: PartialEq + Debug>(&mut self, what: &str, found: T, expected: T) {
        self.made += 1;
        if found != expected {
            self.failed.push(format!("{what}: found {found:?}, expected {expected:?}"));
        }
    }

    /// Checks that something holds.
    pub fn holds(&mut self, what: &str, holds: bool) {
        self.same(what, holds, true);
    }
}

/// The bytes of fields, each a width and a number, the last byte filled with zero bits.
pub fn bytes_of(fields: &[(u32, u32)]) -> Vec<u8> {
    let mut bits = Vec::new();
    for (width, number) in fields {
        bits.extend((0..*width).rev().map(|place| number >> place & 1));
    }
    while bits.len() % 8 != 0 {
        bits.push(0);
    }
    bits.chunks(8).map(|byte| byte.iter().fold(0, |sum, bit| sum * 2 + *bit as u8)).collect()
}

/// The file of a text that is known to be good.
pub fn file(text: &str) -> Vec<u8> {
    crate::second::text::assemble(text).expect("a good text")
}

/// Runs all tests and says how they went; an error if some check failed.
pub fn selftest() -> Result<Vec<u8>, String> {
    let mut checks = Checks { made: 0, failed: Vec::new() };
    let mut report = String::new();
    let parts: [(&str, fn(&mut Checks)); 12] = [
        ("reading files", files::all),
        ("counting bits", counting::all),
        ("writing files", writing::all),
        ("lists in files", lists::all),
        ("steps on cells", stepping::all),
        ("replaying", replaying::all),
        ("analysing", analysing::all),
        ("readable text", texts::all),
        ("names and expectations", named::all),
        ("lists in texts", list_texts::all),
        ("random files", sampled::all),
        ("wide files", speed::all),
    ];
    for (name, part) in parts {
        let before = checks.made;
        part(&mut checks);
        report += &format!("{name}: {} checks\n", checks.made - before);
    }
    if checks.failed.is_empty() {
        return Ok(format!("{report}all {} checks hold\n", checks.made).into_bytes());
    }
    Err(format!("{report}{} of {} checks failed:\n{}", checks.failed.len(), checks.made, checks.failed.join("\n")))
}
