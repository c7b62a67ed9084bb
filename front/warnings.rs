//! Warnings and notes on a text without faults.

use crate::command_messages::list_is;
use crate::messages;
use crate::model::{Attribute, Comparison, List, Node, Rules, Side, CLASSES};
use crate::names::listed;
use crate::phrase;
use crate::reader::Named;
use crate::report::{Place, Report};

/// So many pairs of values are shown.
const PAIRS: usize = 4;

/// What the formulas of a text say that their nodes do not.
#[derive(Default)]
pub struct Seen {
    pub compared: Vec<Compared>,
    pub unused_parts: Vec<Named>,
}

pub struct Compared {
    pub comparison: Comparison,
    pub sides: [Side; 2],
    /// The operator's.
    pub place: Place,
}

pub fn of(rules: &Rules, seen: &Seen) -> Vec<Report> {
    let mut reports: Vec<Report> = seen.compared.iter().filter_map(|compared| by_number(rules, compared)).collect();
    reports.extend(seen.compared.iter().filter_map(|compared| beyond_list(rules, compared)));
    reports.extend(seen.unused_parts.iter().map(|part| unused(part.place, messages::unused_part(&part.shown()))));
    reports.extend(unused_attributes(rules));
    reports.extend(unused_lists(rules));
    reports.extend(named_like_lists(rules));
    reports.extend(orders(rules, &seen.compared));
    reports
}

/// An attribute is compared with a number that its list does not have.
fn beyond_list(rules: &Rules, compared: &Compared) -> Option<Report> {
    let (attribute, number) = match compared.sides {
        [side, Side::Constant(number)] | [Side::Constant(number), side] => (rules.attribute(side)?, number),
        _ => return None,
    };
    let exact = matches!(compared.comparison, Comparison::Equal | Comparison::Member);
    if !exact || usize::from(number) < attribute.size {
        return None;
    }
    Some(Report::warning(compared.place, messages::no_such_value(number), Some(list_is(attribute))))
}

/// Two attributes are compared by number although their lists have other names for some number.
fn by_number(rules: &Rules, compared: &Compared) -> Option<Report> {
    let [left, right] = [rules.attribute(compared.sides[0])?, rules.attribute(compared.sides[1])?];
    let differing = left.names.iter().zip(&right.names).filter(|(l, r)| l != r);
    let mut pairs: Vec<String> = differing.map(|(l, r)| format!("{} = {}", phrase::name(l), phrase::name(r))).collect();
    if pairs.is_empty() {
        return None;
    }
    if pairs.len() > PAIRS {
        pairs.truncate(PAIRS);
        pairs.push("..".to_string());
    }
    let message = if sorted(left) == sorted(right) { messages::other_order() } else { messages::other_names() };
    let help = messages::write_alike(&listed(pairs.iter().map(String::as_str)));
    Some(Report::warning(compared.place, message.to_string(), Some(help)))
}

fn sorted(attribute: &Attribute) -> Vec<&String> {
    let mut names: Vec<&String> = attribute.names.iter().collect();
    names.sort();
    names
}

fn unused(place: Place, message: String) -> Report {
    Report::warning(place, message, Some(messages::drop_it().to_string()))
}

fn unused_attributes(rules: &Rules) -> Vec<Report> {
    let mut used: Vec<(usize, usize)> = Vec::new();
    for node in rules.formulas.iter().flat_map(|formula| &formula.nodes) {
        if let Node::Compare(_, left, right) = node {
            used.extend([left, right].into_iter().filter_map(class_and_number));
        }
    }
    let mut reports = Vec::new();
    for class in CLASSES {
        for (number, attribute) in rules.of(class).iter().enumerate() {
            if !used.contains(&(class as usize, number)) {
                reports.push(unused(attribute.place, messages::unused_attribute(&phrase::name(&attribute.name), class.word())));
            }
        }
    }
    reports
}

fn unused_lists(rules: &Rules) -> Vec<Report> {
    let used = |number: usize| rules.attributes.iter().flatten().any(|a| a.list == Some(number));
    let lists = rules.lists.iter().enumerate().filter(|(number, _)| !used(*number));
    let warned = |list: &List| Report::warning(list.place, messages::unused_list(&phrase::name(&list.name)), Some(messages::drop_list().to_string()));
    lists.map(|(_, list)| warned(list)).collect()
}

/// An attribute with a list in place of one value that is called like a list: `one of {role}`.
fn named_like_lists(rules: &Rules) -> Vec<Report> {
    let mut reports = Vec::new();
    for attribute in rules.attributes.iter().flatten().filter(|a| a.list.is_none() && a.names.len() == 1) {
        let name = &attribute.names[0];
        if rules.lists.iter().any(|list| list.name == *name) {
            let (name, kind) = (phrase::name(name), if attribute.set { "set" } else { "one" });
            reports.push(Report::warning(attribute.place, messages::name_for_list(&name), Some(messages::list_meant(kind, &name))));
        }
    }
    reports
}

fn class_and_number(side: &Side) -> Option<(usize, usize)> {
    match side {
        Side::Attribute(owner, number) => Some((owner.class() as usize, *number)),
        Side::Constant(_) => None,
    }
}

/// A note for each list of names and each operator that goes by its order, at the first place.
fn orders(rules: &Rules, compared: &[Compared]) -> Vec<Report> {
    let mut noted: Vec<(Comparison, &[String])> = Vec::new();
    let mut reports = Vec::new();
    for Compared { comparison, sides, place } in compared.iter().filter(|c| matches!(c.comparison, Comparison::Below | Comparison::AtMost)) {
        for names in sides.iter().filter_map(|side| rules.attribute(*side)).map(|a| a.names.as_slice()) {
            if names.is_empty() || noted.contains(&(*comparison, names)) {
                continue;
            }
            noted.push((*comparison, names));
            let order: Vec<String> = names.iter().map(|name| phrase::name(name)).collect();
            reports.push(Report::note(*place, messages::goes_by_order(comparison.words(), &order.join(" < "))));
        }
    }
    reports
}
