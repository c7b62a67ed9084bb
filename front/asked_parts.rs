//! Why a question never can happen: the parts of the formula, each asked of the library as if it were the whole formula.

use crate::answer;
use crate::json::Json;
use crate::model::{Formula, Heading, Node, Question, Rules};
use crate::parts::{self, Parts};
use crate::printed::internal;

/// A part, its verdict, and what is below one that never can.
struct Asked {
    text: String,
    never: bool,
    below: Below,
}

/// Parts of which all are needed, or one.
#[derive(Default)]
pub struct Below {
    pub all: bool,
    parts: Vec<Asked>,
    /// Where each of several needed parts can happen alone: how many of the first were asked together, and whether they never can.
    together: Vec<(usize, bool)>,
}

/// Whether the question never can happen whatever the permission's formula says: no session or no item can be there.
pub fn never_anyway(rules: &Rules, question: Question) -> bool {
    let file = parts::with_nodes(rules, Heading::Allow(question.permission), vec![Node::True]);
    asked(&file, question)
}

/// The parts of the permission's formula, of a question that the library answered with `Never`.
pub fn of(rules: &Rules, file: &[u8], question: Question) -> Below {
    let heading = Heading::Allow(question.permission);
    parts::checked(rules, file, heading);
    let formula = parts::formula(rules, heading);
    let nodes = formula.nodes.len();
    let mut asking = Asking { rules, heading, formula, question, verdicts: vec![None; nodes], shown: vec![false; nodes] };
    asking.below(parts::root(formula))
}

struct Asking<'a> {
    rules: &'a Rules,
    heading: Heading,
    formula: &'a Formula,
    question: Question,
    /// Whether each node that was asked never can.
    verdicts: Vec<Option<bool>>,
    /// The nodes whose parts are shown: a formula may use a node often, and its parts are shown once.
    shown: Vec<bool>,
}

impl Asking<'_> {
    /// The parts of a node that never can.
    fn below(&mut self, node: usize) -> Below {
        let Parts { all, nodes } = parts::of(self.formula, node);
        let parts: Vec<Asked> = nodes.iter().map(|node| self.asked(*node)).collect();
        if !all && parts.iter().any(|part| !part.never) {
            internal("an alternative can happen, and what it is an alternative of never can");
        }
        let alone = all && parts.iter().all(|part| !part.never);
        let together = if alone { self.together(&nodes) } else { Vec::new() };
        Below { all, parts, together }
    }

    fn asked(&mut self, node: usize) -> Asked {
        let never = self.never(node);
        let several = parts::of(self.formula, node).nodes.len() > 1;
        let shown = never && several && !std::mem::replace(&mut self.shown[node], true);
        let below = if shown { self.below(node) } else { Below::default() };
        Asked { text: parts::text(self.rules, self.formula, node), never, below }
    }

    fn never(&mut self, node: usize) -> bool {
        if let Some(never) = self.verdicts[node] {
            return never;
        }
        let never = self.answer(&parts::with_part(self.rules, self.heading, node));
        self.verdicts[node] = Some(never);
        never
    }

    /// The first two parts, the first three and so on, up to the first that never can. Where there are too many nodes to ask: all together never can,
    /// since they are the node that never can.
    fn together(&self, nodes: &[usize]) -> Vec<(usize, bool)> {
        let mut found = Vec::new();
        for count in 2..=nodes.len() {
            let (count, never) = match parts::with_first(self.rules, self.heading, &nodes[..count]) {
                Some(file) => (count, self.answer(&file)),
                None => (nodes.len(), true),
            };
            found.push((count, never));
            if never {
                return found;
            }
        }
        internal("all parts together can happen, and the whole never can")
    }

    fn answer(&self, file: &[u8]) -> bool {
        asked(file, self.question)
    }
}

/// Whether a question never can happen by a file that was made for it.
fn asked(file: &[u8], question: Question) -> bool {
    match answer::never(file, question) {
        Ok(never) => never,
        Err(number) => internal(&format!("the library refuses a file with one part of a formula: {number}")),
    }
}

fn verdict(never: bool) -> &'static str {
    if never {
        "never"
    } else {
        "can happen"
    }
}

impl Below {
    /// Rows of a table: the parts, and after them those that were asked together.
    pub fn rows(&self) -> Vec<Vec<String>> {
        let mut rows = Vec::new();
        self.put(&mut rows, 1, 0);
        rows
    }

    /// Appends the parts at one depth, and what was asked together under a heading at another.
    fn put(&self, rows: &mut Vec<Vec<String>>, depth: usize, heading_depth: usize) {
        for part in &self.parts {
            rows.push(vec![format!("{}{}", blanks(depth), part.text), verdict(part.never).to_string()]);
            part.below.put(rows, depth + 1, depth + 1);
        }
        if !self.together.is_empty() {
            rows.push(vec![format!("{}together:", blanks(heading_depth))]);
        }
        for (count, never) in &self.together {
            let which = if *count == self.parts.len() { "all" } else { "the first" };
            rows.push(vec![format!("{}{which} {count}", blanks(heading_depth + 1)), verdict(*never).to_string()]);
        }
    }

    /// How many of the first parts were asked together, and what came of it.
    pub fn together_json(&self) -> Json {
        let asked =
            |(first, never): &(usize, bool)| Json::Object(vec![("first", Json::Number(*first as u64)), ("verdict", Json::text(verdict(*never)))]);
        Json::List(self.together.iter().map(asked).collect())
    }

    pub fn json(&self) -> Json {
        let part = |part: &Asked| {
            Json::Object(vec![("text", Json::text(&part.text)), ("verdict", Json::text(verdict(part.never))), ("parts", part.below.json())])
        };
        Json::List(self.parts.iter().map(part).collect())
    }
}

fn blanks(depth: usize) -> String {
    "  ".repeat(depth)
}
