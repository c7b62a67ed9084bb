//! Rules as a text that assembles to the same bytes.

use crate::model::{Attribute, Class, Formula, Heading, Holder, List, Node, Rules, CLASSES};
use crate::phrase;

/// The whole text, a blank line between groups of declarations.
pub fn text(rules: &Rules) -> String {
    let mut groups = vec![lists(rules)];
    groups.extend(CLASSES.iter().map(|class| attributes(rules, *class)));
    groups.extend(CLASSES.iter().map(|class| holders(rules, *class)));
    groups.push(rules.permissions.iter().map(|p| format!("permission {}\n", phrase::name(&p.name))).collect());
    groups.extend(rules.formulas.iter().enumerate().map(|(number, f)| formula(rules, Heading::of(number), f)));
    groups.push(rules.expectations.iter().map(|e| format!("expect {}\n", phrase::expectation(rules, e))).collect());
    groups.retain(|group| !group.is_empty());
    groups.join("\n")
}

/// The lists that some attribute uses, by their numbers, which are always written.
fn lists(rules: &Rules) -> String {
    let used = |number: usize| rules.attributes.iter().flatten().any(|a| a.list == Some(number));
    let mut lists: Vec<&List> = rules.lists.iter().enumerate().filter(|(number, _)| used(*number)).map(|(_, list)| list).collect();
    lists.sort_by_key(|list| list.number);
    lists.iter().map(|l| format!("list {} {} = {}\n", phrase::name(&l.name), l.number, values(l.size, &l.names))).collect()
}

fn attributes(rules: &Rules, class: Class) -> String {
    let line = |a: &Attribute| vec![format!("{} attribute {}:", class.word(), phrase::name(&a.name)), list(rules, a)];
    table(rules.of(class).iter().map(line).collect())
}

/// The list of an attribute: `one of ledger`, `one of {clerk, controller}`, `set of 3`.
fn list(rules: &Rules, attribute: &Attribute) -> String {
    let kind = if attribute.set { "set" } else { "one" };
    match attribute.list {
        Some(list) => format!("{kind} of {}", phrase::name(&rules.lists[list].name)),
        None => format!("{kind} of {}", values(attribute.size, &attribute.names)),
    }
}

/// The values of a list: their names, or how many there are.
fn values(size: usize, names: &[String]) -> String {
    if names.is_empty() {
        return size.to_string();
    }
    let names: Vec<String> = names.iter().map(|n| phrase::name(n)).collect();
    format!("{{{}}}", names.join(", "))
}

fn holders(rules: &Rules, class: Class) -> String {
    let line = |(number, holder): (usize, &Holder)| {
        let mut cells = vec![declared(rules, class, number, holder)];
        cells.extend(rules.of(class).iter().zip(&holder.codes).map(|(a, code)| phrase::given(a, *code)));
        let last = cells.len() - 1;
        for (column, cell) in cells[..last].iter_mut().enumerate() {
            cell.push(if column == 0 { ':' } else { ',' });
        }
        cells
    };
    table(rules.holders(class).iter().enumerate().map(line).collect())
}

/// What stands before the values: `user anna`, `session night_run of importer`, `item`.
fn declared(rules: &Rules, class: Class, number: usize, holder: &Holder) -> String {
    let mut words = class.word().to_string();
    if class != Class::User && phrase::QUOTED_ONLY.contains(&holder.name.as_str()) {
        words += &format!(" \"{}\"", holder.name);
    } else if class == Class::User || holder.name != phrase::unnamed(class, number) {
        words += &format!(" {}", phrase::name(&holder.name));
    }
    if class == Class::Session {
        words += &format!(" of {}", phrase::name(&rules.users[holder.user].name));
    }
    words
}

/// Lines whose cells stand below each other.
fn table(lines: Vec<Vec<String>>) -> String {
    let width = |column: usize| lines.iter().filter_map(|line| line.get(column)).map(|cell| cell.chars().count()).max().unwrap_or(0);
    let mut text = String::new();
    for line in &lines {
        let padded: Vec<String> = line.iter().enumerate().map(|(column, cell)| format!("{cell:<0$}", width(column))).collect();
        text += padded.join(" ").trim_end();
        text += "\n";
    }
    text
}

fn formula(rules: &Rules, heading: Heading, formula: &Formula) -> String {
    let formula = listable(formula.clone());
    let mut text = format!("{}:\n", phrase::heading(rules, heading));
    for node in 0..formula.nodes.len() {
        let expression = phrase::node(rules, &formula, node);
        let last = node + 1 == formula.nodes.len();
        match part(&formula, node) {
            Some(name) if last => text += &format!("  let {0} = {expression}\n  {0}\n", phrase::name(name)),
            Some(name) => text += &format!("  let {} = {expression}\n", phrase::name(name)),
            None if last => text += &format!("  {expression}\n"),
            None => (),
        }
    }
    text
}

/// The formula with names of parts by which a text gives its nodes in their order: its own names, or else one for each node but the last.
pub fn listable(formula: Formula) -> Formula {
    if gives_its_nodes(&formula) {
        return formula;
    }
    let count = formula.nodes.len();
    let names = (0..count).map(|node| if node + 1 < count { Some(format!("n{node}")) } else { None }).collect();
    Formula { names, ..formula }
}

/// Whether the expressions of the named nodes and of the last one give all nodes in their order.
fn gives_its_nodes(formula: &Formula) -> bool {
    let count = formula.nodes.len();
    let mut expressions = (0..count).filter(|node| part(formula, *node).is_some() || node + 1 == count);
    let mut given = 0;
    differ(&formula.names) && expressions.all(|node| gives(formula, node, &mut given))
}

/// The name of a node.
fn part(formula: &Formula, node: usize) -> Option<&String> {
    formula.names.get(node)?.as_ref()
}

fn differ(names: &[Option<String>]) -> bool {
    (0..names.len()).all(|i| names[i].is_none() || !names[..i].contains(&names[i]))
}

/// Whether the expression of a node, after so many given nodes, gives all further ones up to this node. A named node below it was given before.
fn gives(formula: &Formula, node: usize, given: &mut usize) -> bool {
    let sides = match formula.nodes[node] {
        Node::Not(a) => vec![a],
        Node::And(a, b) | Node::Or(a, b) => vec![a, b],
        _ => vec![],
    };
    let below = sides.iter().all(|side| *side < node && (part(formula, *side).is_some() || gives(formula, *side, given)));
    *given += 1;
    below && *given == node + 1
}
