//! Answers of the library, with the checks of what is not proved.

use crate::library;
use crate::model::{Question, Rules};
use crate::printed::internal;
use crate::question;
use crate::steps::Run;
use crate::words::words;

/// A step of a leak: its row, and the same in words.
pub struct Step {
    pub row: u64,
    pub text: String,
}

pub enum Verdict {
    Never,
    CanHappen(Vec<Step>),
}

/// The verdict, how many pairs of user and session value can be open, and how many values the asked item can have.
pub struct Answer {
    pub verdict: Verdict,
    pub pairs: u64,
    pub values: u64,
}

impl Answer {
    pub fn never(&self) -> bool {
        matches!(self.verdict, Verdict::Never)
    }

    pub fn steps(&self) -> &[Step] {
        match &self.verdict {
            Verdict::Never => &[],
            Verdict::CanHappen(steps) => steps,
        }
    }
}

/// The library's answer, or its number. A leak is told only if it replays for this file and question, and its steps in words read back to its rows.
pub fn answer(rules: &Rules, file: &[u8], question: Question) -> Result<Answer, u32> {
    let told = analysed(file, question)?;
    let verdict = match told.verdict {
        library::Verdict::Safe => Verdict::Never,
        library::Verdict::Leak(rows) => Verdict::CanHappen(in_words(rules, file, &rows)),
    };
    Ok(Answer { verdict, pairs: told.pairs, values: told.values })
}

/// The verdict alone, of a file that was made for this question.
pub fn never(file: &[u8], question: Question) -> Result<bool, u32> {
    Ok(matches!(analysed(file, question)?.verdict, library::Verdict::Safe))
}

/// The library's answer; a leak replays.
fn analysed(file: &[u8], question: Question) -> Result<library::Answer, u32> {
    let bytes = question::bytes(question);
    let told = library::analyse(file, &bytes)?;
    if let library::Verdict::Leak(rows) = &told.verdict {
        // so many cells are enough: the starting ones, at most 32 of each, and one for each row
        if let Err(number) = library::replay(file, &bytes, rows, 32 + rows.len()) {
            internal(&format!("the steps of an answer do not replay: {number}"));
        }
    }
    Ok(told)
}

/// The rows of a leak in words. A second run, which knows only the words, must come to the same rows.
fn in_words(rules: &Rules, file: &[u8], rows: &[u64]) -> Vec<Step> {
    let mut run = Run::start(rules, file, rows.len());
    let mut again = run.clone();
    let mut steps = Vec::new();
    for row in rows {
        let text = run.words(*row);
        let (read, name) = match again.read(&words(&text)) {
            Ok(read) => read,
            Err(report) => internal(&format!("a step in words cannot be read: {text}: {}", report.message)),
        };
        if read != *row {
            internal(&format!("a step in words reads as another: {text}"));
        }
        if let Err(number) = run.carry_out(*row, None).and(again.carry_out(read, name)) {
            internal(&format!("a step of an answer is refused: {number}: {text}"));
        }
        steps.push(Step { row: *row, text });
    }
    steps
}
