//! Rules in the words of a text.

use crate::model::{Attribute, Class, Expectation, Formula, Heading, Node, Rules, Side, Who};
use crate::names::listed;
use crate::words::is_plain;

/// Words of a text; a name that is one of them stands in quotes.
pub const RESERVED: [&str; 22] = [
    "user", "session", "item", "new", "attribute", "one", "set", "of", "permission", "open", "change", "make", "allow", "let", "and", "or", "not",
    "in", "subset", "proper", "true", "false",
];

/// Words that name a session or item only in quotes: after `item` they begin a declaration, now or in a later version.
pub const QUOTED_ONLY: [&str; 6] = ["expect", "list", "order", "amounts", "firm", "section"];

/// Words of a question or expectation; a user or item that is named like one of them gets its class word.
pub const QUESTION_WORDS: [&str; 6] = ["anyone", "any", "on", "never", "can", "expect"];

/// A name as a text has it, quoted where it is not plain or is a word of a text.
pub fn name(name: &str) -> String {
    if is_plain(name) && !RESERVED.contains(&name) {
        name.to_string()
    } else {
        format!("\"{name}\"")
    }
}

/// The name of a starting session or item that a text gives none.
pub fn unnamed(class: Class, number: usize) -> String {
    format!("{}_{number}", class.word())
}

/// The value of an attribute: `controller`, `3`, `{bank, customers}`, `{}`.
pub fn value(attribute: &Attribute, code: u8) -> String {
    if !attribute.set {
        return of_list(attribute, code);
    }
    let members: Vec<String> = (0..8).filter(|i| code >> i & 1 == 1).map(|i| of_list(attribute, i)).collect();
    format!("{{{}}}", members.join(", "))
}

/// A value or member by its name, or by its number where the list has no name for it.
fn of_list(attribute: &Attribute, number: u8) -> String {
    attribute.names.get(usize::from(number)).map_or_else(|| number.to_string(), |n| name(n))
}

/// The values of a holder: `role = clerk, ledgers = {bank}`.
pub fn values(attributes: &[Attribute], codes: &[u8]) -> String {
    let given: Vec<String> = attributes.iter().zip(codes).map(|(a, code)| given(a, *code)).collect();
    listed(given.iter().map(String::as_str))
}

/// An attribute with its value: `role = clerk`.
pub fn given(attribute: &Attribute, code: u8) -> String {
    format!("{} = {}", name(&attribute.name), value(attribute, code))
}

/// The heading of a formula: `open session`, `allow agree`.
pub fn heading(rules: &Rules, heading: Heading) -> String {
    match heading {
        Heading::OpenSession => "open session".to_string(),
        Heading::ChangeSession => "change session".to_string(),
        Heading::MakeItem => "make item".to_string(),
        Heading::ChangeItem => "change item".to_string(),
        Heading::Allow(permission) => format!("allow {}", name(&rules.permissions[permission].name)),
    }
}

/// A side of a comparison: `session.role`, `new item.state`; a constant by the list of the other side: `controller`, else its number.
pub fn side(rules: &Rules, side: Side, other: Side) -> String {
    match side {
        Side::Attribute(owner, number) => format!("{}.{}", owner.words(), name(&rules.of(owner.class())[number].name)),
        Side::Constant(code) => rules.attribute(other).map_or_else(|| code.to_string(), |a| of_list(a, code)),
    }
}

/// A node as an expression, with as few parentheses as give the same nodes. A node below it that has a name is written as that name.
pub fn node(rules: &Rules, formula: &Formula, node: usize) -> String {
    let below = |child: usize, least: Binding| operand(rules, formula, child, least);
    match formula.nodes[node] {
        Node::False => "false".to_string(),
        Node::True => "true".to_string(),
        Node::Not(a) => format!("not {}", below(a, Binding::Single)),
        Node::And(a, b) => format!("{} and {}", below(a, Binding::And), below(b, Binding::Single)),
        Node::Or(a, b) => format!("{} or {}", below(a, Binding::Or), below(b, Binding::And)),
        Node::Compare(comparison, left, right) => {
            format!("{} {} {}", side(rules, left, right), comparison.words(), side(rules, right, left))
        }
    }
}

/// How close an expression binds, the loosest first.
#[derive(PartialEq, PartialOrd)]
enum Binding {
    Or,
    And,
    Single,
}

fn binding(node: Node) -> Binding {
    match node {
        Node::Or(..) => Binding::Or,
        Node::And(..) => Binding::And,
        _ => Binding::Single,
    }
}

/// A node below another one: its name, or its expression, in parentheses where it binds looser than `least`.
fn operand(rules: &Rules, formula: &Formula, child: usize, least: Binding) -> String {
    if let Some(Some(part)) = formula.names.get(child) {
        return name(part);
    }
    let expression = node(rules, formula, child);
    if binding(formula.nodes[child]) < least {
        format!("({expression})")
    } else {
        expression
    }
}

/// Whom a question asks about: `anna`, `session night_run`, `anyone`. A user that is named like a session gets its class word.
pub fn who(rules: &Rules, who: Who) -> String {
    match who {
        Who::Anyone => "anyone".to_string(),
        Who::Session(number) => format!("session {}", name(&rules.sessions[number].name)),
        Who::User(number) => {
            let user = &rules.users[number].name;
            // `someone` stands for anyone in an answer
            let shared = user == "someone" || rules.sessions.iter().any(|s| s.name == *user);
            with_class("user", user, shared)
        }
    }
}

/// The item that a question asks about: `line_4711`, `any item`.
pub fn item(rules: &Rules, item: Option<usize>) -> String {
    item.map_or_else(|| "any item".to_string(), |number| with_class("item", &rules.items[number].name, false))
}

fn with_class(class: &str, holder: &str, shared: bool) -> String {
    if shared || QUESTION_WORDS.contains(&holder) {
        format!("{class} {}", name(holder))
    } else {
        name(holder)
    }
}

/// An expectation: `carla can agree on line_4711`, `anna never agree`.
pub fn expectation(rules: &Rules, expectation: &Expectation) -> String {
    let question = expectation.question;
    let verdict = if expectation.never { "never" } else { "can" };
    let asked = format!("{} {verdict} {}", who(rules, question.who), name(&rules.permissions[question.permission].name));
    match question.item {
        None => asked,
        Some(_) => format!("{asked} on {}", item(rules, question.item)),
    }
}
