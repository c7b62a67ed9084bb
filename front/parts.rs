//! The parts that a formula needs, and rule files in which a part is the whole formula.

use crate::bits;
use crate::formula::NODES;
use crate::model::{Formula, Heading, Node, Rules};
use crate::phrase;
use crate::printed::internal;

/// Parts of which all are needed, or one; each stands here once.
pub struct Parts {
    pub all: bool,
    pub nodes: Vec<usize>,
}

/// The parts of a node: what it joins by `and`, or what it joins by `or`; of any other node only itself.
pub fn of(formula: &Formula, node: usize) -> Parts {
    let nodes = needed(formula, node);
    match nodes[..] {
        [only] if matches!(formula.nodes[only], Node::Or(..)) => {
            let nodes = alternatives(formula, only);
            match nodes[..] {
                [same] => of(formula, same),
                _ => Parts { all: false, nodes },
            }
        }
        _ => Parts { all: true, nodes },
    }
}

/// What a node joins by `and`, through other such nodes too; a node that joins nothing is its only part.
pub fn needed(formula: &Formula, node: usize) -> Vec<usize> {
    taken_apart(formula, node, |node| match node {
        Node::And(a, b) => Some((a, b)),
        _ => None,
    })
}

/// What a node joins by `or`, likewise.
pub fn alternatives(formula: &Formula, node: usize) -> Vec<usize> {
    taken_apart(formula, node, |node| match node {
        Node::Or(a, b) => Some((a, b)),
        _ => None,
    })
}

/// The nodes that are reached through joining ones and join nothing themselves, from left to right; of nodes that say the same only the first.
fn taken_apart(formula: &Formula, node: usize, joined: fn(Node) -> Option<(usize, usize)>) -> Vec<usize> {
    let mut found: Vec<usize> = Vec::new();
    let mut seen: Vec<Node> = Vec::new();
    let mut waiting = vec![node];
    while let Some(number) = waiting.pop() {
        let next = formula.nodes[number];
        if seen.contains(&next) {
            continue;
        }
        seen.push(next);
        match joined(next) {
            Some((left, right)) => waiting.extend([right, left]),
            None => found.push(number),
        }
    }
    found
}

/// A part as it is shown: by its name where its own parts can be shown below it, else as an expression.
pub fn text(rules: &Rules, formula: &Formula, node: usize) -> String {
    match (formula.nodes[node], formula.names.get(node)) {
        (Node::And(..) | Node::Or(..), Some(Some(name))) => phrase::name(name),
        _ => phrase::node(rules, formula, node),
    }
}

/// A formula as it is shown: `` `allow agree` (line 53) ``; one that was not read from a text has no line.
pub fn formula_words(rules: &Rules, heading: Heading) -> String {
    let name = phrase::heading(rules, heading);
    match line(rules, heading) {
        Some(line) => format!("`{name}` (line {line})"),
        None => format!("`{name}`"),
    }
}

/// The line of the text on which a formula begins.
pub fn line(rules: &Rules, heading: Heading) -> Option<usize> {
    Some(formula(rules, heading).place.line).filter(|line| *line > 0)
}

/// The formula that a heading stands over.
pub fn formula(rules: &Rules, heading: Heading) -> &Formula {
    &rules.formulas[heading.number()]
}

/// The answer of a formula: its last node.
pub fn root(formula: &Formula) -> usize {
    formula.nodes.len() - 1
}

/// The rule file in which a node is the whole formula.
pub fn with_part(rules: &Rules, heading: Heading, node: usize) -> Vec<u8> {
    with_nodes(rules, heading, formula(rules, heading).nodes[..=node].to_vec())
}

/// Holds these files to the one that was given: with its answer as the part, it is the same file.
pub fn checked(rules: &Rules, file: &[u8], heading: Heading) {
    if with_part(rules, heading, root(formula(rules, heading))) != file {
        internal("a file with a whole formula in place of a part is another one");
    }
}

/// The rule file in which the formula is these nodes joined by `and`, if it can hold so many.
pub fn with_first(rules: &Rules, heading: Heading, parts: &[usize]) -> Option<Vec<u8>> {
    let old = &formula(rules, heading).nodes;
    let mut copy = Copy { old, new: Vec::new(), numbers: vec![None; old.len()] };
    let numbers: Vec<usize> = parts.iter().map(|part| copy.number(*part)).collect();
    let mut nodes = copy.new;
    let mut joined = *numbers.first()?;
    for number in &numbers[1..] {
        nodes.push(Node::And(joined, *number));
        joined = nodes.len() - 1;
    }
    Some(nodes).filter(|nodes| nodes.len() <= NODES).map(|nodes| with_nodes(rules, heading, nodes))
}

/// The rule file with other nodes of a formula.
pub fn with_nodes(rules: &Rules, heading: Heading, nodes: Vec<Node>) -> Vec<u8> {
    let mut rules = rules.clone();
    rules.formulas[heading.number()].nodes = nodes;
    bits::bytes(&rules)
}

/// Nodes taken over into a new formula, each once and after those that it uses.
struct Copy<'a> {
    old: &'a [Node],
    new: Vec<Node>,
    /// The new number of each old node that was taken over.
    numbers: Vec<Option<usize>>,
}

impl Copy<'_> {
    /// The new number of a node.
    fn number(&mut self, node: usize) -> usize {
        if let Some(number) = self.numbers[node] {
            return number;
        }
        let copy = match self.old[node] {
            Node::Not(a) => Node::Not(self.number(a)),
            Node::And(a, b) => Node::And(self.number(a), self.number(b)),
            Node::Or(a, b) => Node::Or(self.number(a), self.number(b)),
            other => other,
        };
        self.new.push(copy);
        self.numbers[node] = Some(self.new.len() - 1);
        self.new.len() - 1
    }
}
