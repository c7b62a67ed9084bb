//! Attributes whose lists differ: compared in a text, or in a rule file that the library refuses with 18 or 19.

use crate::comparison::way;
use crate::file;
use crate::messages;
use crate::model::{Attribute, Comparison, Heading, Node, Owner, Rules, Side, CLASSES};
use crate::phrase;
use crate::reader::Reader;
use crate::report::Place;

/// The library's numbers of lists that differ: in size, and where attributes are compared.
const SIZES: u32 = 18;
const COMPARED: u32 = 19;

impl Reader {
    /// Whether two compared attributes use different lists, which is a fault. Constants fit any list.
    pub fn lists_differ(&mut self, heading: Option<Heading>, comparison: Comparison, sides: [Side; 2], place: Place) -> bool {
        let differ = differ(&self.rules, sides);
        if differ {
            let formula = heading.map_or("this formula".to_string(), |heading| format!("`{}`", phrase::heading(&self.rules, heading)));
            let [left, right] = sides.map(|side| of_list(&self.rules, side));
            self.fault(place, messages::lists_differ(&formula, &left, &right), mended(&self.rules, comparison, sides));
        }
        differ
    }
}

/// Whether two sides are attributes that use different lists.
pub fn differ(rules: &Rules, sides: [Side; 2]) -> bool {
    match sides.map(|side| rules.attribute(side)) {
        [Some(left), Some(right)] => left.list != right.list,
        _ => false,
    }
}

/// A side with its list: `` `item.ledger` of list `ledger` ``.
fn of_list(rules: &Rules, side: Side) -> String {
    let words = phrase::side(rules, side, side);
    match (list_name(rules, side), rules.attribute(side)) {
        (None, Some(attribute)) => messages::of_place(&words, attribute.place.line),
        (name, _) => messages::of_list(&words, &name.unwrap_or_default()),
    }
}

/// The name of the list that a side uses, if it has one.
fn list_name(rules: &Rules, side: Side) -> Option<String> {
    let list = rules.attribute(side)?.list?;
    Some(phrase::name(&rules.lists[list].name))
}

/// How to mend a comparison of different lists.
fn mended(rules: &Rules, comparison: Comparison, sides: [Side; 2]) -> String {
    used_in_place(rules, sides).or_else(|| other_attribute(rules, comparison, sides)).unwrap_or_else(|| messages::one_list().to_string())
}

/// One side has a list with a name, and the list of the other, written in place, has the same values: it can use that list too.
fn used_in_place(rules: &Rules, sides: [Side; 2]) -> Option<String> {
    for (named, in_place) in [(0, 1), (1, 0)] {
        let list = rules.attribute(sides[named]).and_then(|a| a.list).map(|list| &rules.lists[list]);
        let attribute = rules.attribute(sides[in_place]).filter(|a| a.list.is_none());
        if let (Some(list), Some(Attribute { set, size, names, place, .. })) = (list, attribute) {
            if *size == list.size && *names == list.names {
                return Some(messages::same_list(if *set { "set" } else { "one" }, &phrase::name(&list.name), place.line));
            }
        }
    }
    None
}

/// The comparison with another attribute of the same holder in place of one side, one that uses the list of the other side. A proposed value is never
/// left out of a formula, and the operator stays, but that `=` with a set is `in`. First comes an attribute with the name of the side that is kept.
fn other_attribute(rules: &Rules, comparison: Comparison, sides: [Side; 2]) -> Option<String> {
    let [left, right] = sides;
    let others = instead(rules, left, right).map(|other| (left, other, [left, other]));
    let others = others.chain(instead(rules, right, left).map(|other| (right, other, [other, right])));
    let kinds = |sides: [Side; 2]| sides.map(|side| rules.attribute(side).map_or(false, |a| a.set));
    let fits = |sides| kinds(sides) == comparison.sets() || comparison == Comparison::Equal && kinds(sides) != [true, true];
    let name = |side| rules.attribute(side).map(|a| &a.name);
    let fitting = others.filter(|(_, _, compared)| fits(*compared));
    let (_, other, compared) = fitting.min_by_key(|(kept, other, compared)| (kinds(*compared) != comparison.sets(), name(*kept) != name(*other)))?;
    let [left, right] = compared.map(|side| phrase::side(rules, side, side));
    let way = way([&left, &right], kinds(compared), comparison);
    Some(messages::other_attribute(&phrase::side(rules, other, other), &list_name(rules, other)?, &way))
}

/// The attributes of the holder of one side, as it is, that use the list of the kept side, if it has a name.
fn instead(rules: &Rules, kept: Side, left_out: Side) -> impl Iterator<Item = Side> + '_ {
    let list = rules.attribute(kept).and_then(|attribute| attribute.list);
    let as_is = [Owner::User, Owner::Session, Owner::Item];
    let owners = as_is.into_iter().filter(move |owner| matches!(left_out, Side::Attribute(of, _) if of == *owner));
    let attributes = owners.flat_map(move |owner| (0..rules.of(owner.class()).len()).map(move |number| Side::Attribute(owner, number)));
    let uses = move |side: &Side| list.is_some() && rules.attribute(*side).map_or(false, |attribute| attribute.list == list);
    attributes.filter(move |side| *side != kept && uses(side))
}

/// The help where two sides do not fit the operator and use different lists.
pub fn lists_too(rules: &Rules, comparison: Comparison, sides: [Side; 2]) -> String {
    let [left, right] = sides.map(|side| of_list(rules, side));
    other_attribute(rules, comparison, sides).unwrap_or_else(|| messages::lists_too(&left, &right))
}

/// Where a file has what the library refuses it for with 18 or 19, if that is found.
pub fn in_file(bytes: &[u8], number: u32) -> Option<String> {
    let rules = file::rules(bytes);
    match number {
        SIZES => size_in_file(&rules),
        COMPARED => compared_in_file(&rules),
        _ => None,
    }
}

/// The first attribute whose size is not that of its list, which is the size of the first attribute that uses it.
fn size_in_file(rules: &Rules) -> Option<String> {
    for class in CLASSES {
        for attribute in rules.of(class) {
            let list = attribute.list.map(|list| &rules.lists[list]);
            if let Some(list) = list.filter(|list| list.size != attribute.size) {
                return Some(messages::sizes_in_file(&attribute.name, class.word(), attribute.size, list.number, list.size));
            }
        }
    }
    None
}

/// The first comparison of two attributes that use different lists. No node before it names an absent attribute: the library would have given 8.
fn compared_in_file(rules: &Rules) -> Option<String> {
    for (number, formula) in rules.formulas.iter().enumerate() {
        for node in &formula.nodes {
            if let Node::Compare(_, Side::Attribute(a, m), Side::Attribute(b, n)) = *node {
                let lists = [list_in_file(rules, a, m)?, list_in_file(rules, b, n)?];
                if lists[0] != lists[1] {
                    let heading = phrase::heading(rules, Heading::of(number));
                    let words = |owner: Owner, number: usize, list: usize| messages::side_in_file(owner.words(), number, list);
                    return Some(messages::compared_in_file(&heading, &words(a, m, lists[0]), &words(b, n, lists[1])));
                }
            }
        }
    }
    None
}

/// The list number of an attribute, if it is there.
fn list_in_file(rules: &Rules, owner: Owner, number: usize) -> Option<usize> {
    Some(rules.list_number(rules.of(owner.class()).get(number)?))
}
