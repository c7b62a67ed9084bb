//! Faults, warnings and notes, with their places in a text.

/// Characters of one line: line and column count from 1. Line 0 is no place.
#[derive(Clone, Copy, Debug, Default, PartialEq, Eq, PartialOrd, Ord)]
pub struct Place {
    pub line: usize,
    pub column: usize,
    pub length: usize,
}

#[derive(Clone, Copy, Debug, PartialEq, Eq)]
pub enum Severity {
    Error,
    Warning,
    Note,
    /// A number of the library.
    Refused,
}

impl Severity {
    pub fn word(self) -> &'static str {
        ["error", "warning", "note", "refused"][self as usize]
    }
}

/// What is said of a place, and what would be right.
#[derive(Clone, Debug)]
pub struct Report {
    pub severity: Severity,
    pub place: Place,
    pub message: String,
    pub help: Option<String>,
}

impl Report {
    pub fn error(place: Place, message: String, help: Option<String>) -> Report {
        Report { severity: Severity::Error, place, message, help }
    }

    pub fn warning(place: Place, message: String, help: Option<String>) -> Report {
        Report { severity: Severity::Warning, place, message, help }
    }

    pub fn note(place: Place, message: String) -> Report {
        Report { severity: Severity::Note, place, message, help: None }
    }
}

/// So many characters of a line are shown at most, around the place.
const WIDEST: usize = 160;

/// A character as it is shown: `?` stands for a hidden one.
pub fn shown(c: char) -> char {
    match c {
        '\t' => ' ',
        _ if is_hidden(c) => '?',
        _ => c,
    }
}

/// Characters that are not shown: control characters, line and paragraph separators, and those that Unicode calls default ignorable, among them
/// all that turn the direction of writing. A text has none but tabs and line ends.
pub fn is_hidden(c: char) -> bool {
    c.is_control() || HIDDEN.iter().any(|(first, last)| (*first..=*last).contains(&u32::from(c)))
}

const HIDDEN: [(u32, u32); 17] = [
    (0xAD, 0xAD),
    (0x34F, 0x34F),
    (0x61C, 0x61C),
    (0x115F, 0x1160),
    (0x17B4, 0x17B5),
    (0x180B, 0x180F),
    (0x200B, 0x200F),
    (0x2028, 0x202E),
    (0x2060, 0x206F),
    (0x3164, 0x3164),
    (0xFE00, 0xFE0F),
    (0xFEFF, 0xFEFF),
    (0xFFA0, 0xFFA0),
    (0xFFF0, 0xFFF8),
    (0x1BCA0, 0x1BCA3),
    (0x1D173, 0x1D17A),
    (0xE0000, 0xE0FFF),
];

/// The report of a place in a text: `NAME:LINE:COLUMN: error: MESSAGE`, the line, carets, what would be right.
/// `word` is the severity's, in its colour.
pub fn in_text(name: &str, text: &str, report: &Report, word: &str) -> String {
    let Place { line, column, length } = report.place;
    let mut told = format!("{name}:{line}:{column}: {word} {}\n", report.message);
    if report.severity == Severity::Note {
        return told;
    }
    let source = text.lines().nth(line - 1).unwrap_or("").trim_start_matches('\u{FEFF}');
    let from = if source.chars().count() > WIDEST { (column - 1).saturating_sub(WIDEST / 2) } else { 0 };
    let part: String = source.chars().skip(from).take(WIDEST).map(shown).collect();
    let carets = length.clamp(1, (WIDEST + 1 + from).saturating_sub(column).max(1));
    told += &format!("{line:>5} | {}\n", part.trim_end());
    told += &format!("      | {}{}\n", " ".repeat(column - 1 - from), "^".repeat(carets));
    if let Some(help) = &report.help {
        told += &format!("      = {help}\n");
    }
    told
}
