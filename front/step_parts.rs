//! The parts of the formula that decides a step: the values that they compare, and which of them are true. Truth is asked of the library.

use crate::json::Json;
use crate::model::{Comparison, Formula, Heading, Node, Rules, Side};
use crate::parts::{self, Parts};
use crate::phrase;
use crate::printed::internal;
use crate::steps::{Run, Said};

/// The library's number of a step whose formula is false.
pub const FALSE: u32 = 16;

/// A part at a step.
pub struct Part {
    pub text: String,
    /// The comparison with the values in place of the attributes.
    pub values: Option<String>,
    pub holds: bool,
    /// The parts that make it so, shown below it.
    pub parts: Vec<Part>,
}

/// The formula that decides a step, and its parts.
pub struct Decided {
    pub heading: Heading,
    pub parts: Vec<Part>,
}

/// Why a step that can be carried out is: parts that are all true. Closing needs no formula.
pub fn carried_out(run: &Run, row: u64) -> Option<Decided> {
    let mut step = Step::of(run, row)?;
    let parts = step.reasons(parts::root(step.formula));
    Some(Decided { heading: step.heading, parts })
}

/// Why a step that is refused because its formula is false is: all parts, and below a false one its own.
pub fn refused(run: &Run, row: u64) -> Option<Decided> {
    let mut step = Step::of(run, row)?;
    let parts = step.judged(parts::root(step.formula), false);
    Some(Decided { heading: step.heading, parts })
}

struct Step<'r> {
    run: &'r Run<'r>,
    row: u64,
    heading: Heading,
    formula: &'r Formula,
    said: Said,
    /// The nodes whose parts are shown: a formula may use a node often, and its parts are shown once.
    shown: Vec<bool>,
}

impl<'r> Step<'r> {
    fn of(run: &'r Run<'r>, row: u64) -> Option<Step<'r>> {
        let said = run.said(row);
        let heading = said.heading?;
        parts::checked(run.rules, run.file, heading);
        let formula = parts::formula(run.rules, heading);
        Some(Step { run, row, heading, formula, said, shown: vec![false; formula.nodes.len()] })
    }

    fn rules(&self) -> &'r Rules {
        self.run.rules
    }

    /// What makes a node true: each part that it needs, and below an `or` what makes its first true alternative true.
    fn reasons(&mut self, node: usize) -> Vec<Part> {
        parts::needed(self.formula, node).iter().map(|part| self.reason(*part)).collect()
    }

    fn reason(&mut self, node: usize) -> Part {
        if !self.holds(node) {
            internal(&format!("a step was carried out against a part of its formula: {}", self.text(node)));
        }
        let parts = match self.formula.nodes[node] {
            Node::Or(..) if self.shown_first(node) => {
                let alternatives = parts::alternatives(self.formula, node);
                match alternatives.into_iter().find(|alternative| self.holds(*alternative)) {
                    Some(alternative) => self.reasons(alternative),
                    None => internal(&format!("no alternative is true: {}", self.text(node))),
                }
            }
            _ => Vec::new(),
        };
        let values = match self.formula.nodes[node] {
            Node::Or(..) => None,
            _ => Some(self.values(node).unwrap_or_else(|| "true".to_string())),
        };
        Part { text: self.text(node), values, holds: true, parts }
    }

    /// Each part of a node, true or false; below a false one its own parts. Together they must make the node true or false, as it is.
    fn judged(&mut self, node: usize, holds: bool) -> Vec<Part> {
        let Parts { all, nodes } = parts::of(self.formula, node);
        let parts: Vec<Part> = nodes.iter().map(|part| self.judge(*part)).collect();
        let together = if all { parts.iter().all(|part| part.holds) } else { parts.iter().any(|part| part.holds) };
        if together != holds {
            internal(&format!("the parts of a formula say otherwise than the whole: {}", self.text(node)));
        }
        parts
    }

    fn judge(&mut self, node: usize) -> Part {
        let holds = self.holds(node);
        let parts = match self.formula.nodes[node] {
            _ if holds || !self.shown_first(node) => Vec::new(),
            Node::And(..) | Node::Or(..) => self.judged(node, false),
            Node::Not(x) if matches!(self.formula.nodes[x], Node::Not(_) | Node::And(..) | Node::Or(..)) => self.judged(x, true),
            _ => Vec::new(),
        };
        Part { text: self.text(node), values: self.values(node), holds, parts }
    }

    /// Whether a node is true of the step: what the library says where the node is the whole formula.
    fn holds(&self, node: usize) -> bool {
        match self.run.would(&parts::with_part(self.rules(), self.heading, node), self.row) {
            Ok(()) => true,
            Err(FALSE) => false,
            Err(number) => internal(&format!("a part of a formula cannot be asked of a step: {number}: {}", self.text(node))),
        }
    }

    fn shown_first(&mut self, node: usize) -> bool {
        !std::mem::replace(&mut self.shown[node], true)
    }

    fn text(&self, node: usize) -> String {
        parts::text(self.rules(), self.formula, node)
    }

    /// A comparison, or `not` of one, with the values in.
    fn values(&self, node: usize) -> Option<String> {
        match self.formula.nodes[node] {
            Node::Compare(comparison, left, right) => Some(self.compared(comparison, left, right)),
            Node::Not(x) => match self.formula.nodes[x] {
                Node::Compare(comparison, left, right) => Some(format!("not {}", self.compared(comparison, left, right))),
                _ => None,
            },
            _ => None,
        }
    }

    fn compared(&self, comparison: Comparison, left: Side, right: Side) -> String {
        format!("{} {} {}", self.side(left, right), comparison.words(), self.side(right, left))
    }

    /// The value of a side; a constant as it is written.
    fn side(&self, side: Side, other: Side) -> String {
        match side {
            Side::Constant(_) => phrase::side(self.rules(), side, other),
            Side::Attribute(owner, number) => match &self.said.codes[owner as usize] {
                Some(codes) => phrase::value(&self.rules().of(owner.class())[number], codes[number]),
                None => internal(&format!("a formula uses a value that its step does not have: {}", owner.words())),
            },
        }
    }
}

/// Rows of a table: each part with its cells, those below it indented by two more.
pub fn rows(parts: &[Part], cells: fn(&Part) -> Vec<String>) -> Vec<Vec<String>> {
    let mut rows = Vec::new();
    put(&mut rows, parts, cells, 0);
    rows
}

fn put(rows: &mut Vec<Vec<String>>, parts: &[Part], cells: fn(&Part) -> Vec<String>, depth: usize) {
    for part in parts {
        let text = format!("{}{}", "  ".repeat(depth), part.text);
        rows.push([vec![text], cells(part)].concat());
        put(rows, &part.parts, cells, depth + 1);
    }
}

/// The part as an object: its text, its values, and what else is said of it.
pub fn json(part: &Part, more: fn(&Part) -> Vec<(&'static str, Json)>) -> Json {
    let values = part.values.as_deref().map_or(Json::Null, Json::text);
    let below = Json::List(part.parts.iter().map(|part| json(part, more)).collect());
    Json::Object([vec![("text", Json::text(&part.text)), ("values", values)], more(part), vec![("parts", below)]].concat())
}
