//! Readable text: lists with names, by docs/TEXT.md.

use super::lists::counter_with_lists;
use super::{file, Checks, COUNTER};
use crate::second::read::read;
use crate::second::text::{assemble, list};

const COUNTER_TEXT: &str = include_str!("../../../examples/counter.rules.txt");
const MAC_TEXT: &str = include_str!("../../../examples/mac.rules.txt");
const FORMULAS: &str = "open session: true change session: true make item: true change item: true";

pub fn all(checks: &mut Checks) {
    counter(checks);
    listings(checks);
    numbers(checks);
    many(checks);
    values(checks);
    words(checks);
    comparisons(checks);
    bad(checks);
    starting_names(checks);
    replaced(checks);
}

/// A text of these declarations, with what every text needs after them.
fn text(declarations: &str) -> String {
    format!("{declarations}\nuser u\npermission p\n{FORMULAS}\nallow p: true")
}

/// The list numbers of all attributes of a text, in the file's order, or the line where it is bad.
fn lists_of(text: &str) -> Result<Vec<u32>, usize> {
    let bytes = assemble(text).map_err(|(line, _)| line)?;
    Ok(read(&bytes).unwrap().attributes.concat().iter().map(|attribute| attribute.list).collect())
}

/// The counter text with lists gives the bytes that are worked out by hand.
fn counter(checks: &mut Checks) {
    let listed = COUNTER_TEXT
        .replace("user attribute rights: set of {counting}", "list right = {counting} user attribute rights: set of right")
        .replace("session attribute rights: set of {counting}", "session attribute rights: set of right")
        .replace("item attribute count: one of 2", "list number 31 = 2 item attribute count: one of number");
    checks.same("the counter text with lists", assemble(&listed), Ok(counter_with_lists()));
    checks.same("without them", assemble(COUNTER_TEXT), Ok(COUNTER.to_vec()));
}

/// What a listing says.
fn listings(checks: &mut Checks) {
    let listing = list(&counter_with_lists()).unwrap();
    let beginning = "list list1 1 = 1\nlist list31 31 = 2\nuser attribute a0: set of list1\n\
        session attribute a0: set of list1\nitem attribute a0: one of list31\nuser user0: a0 = {0}\n";
    checks.same("a listing with lists", listing.get(..beginning.len()), Some(beginning));
    checks.same("it assembles to the same bytes", assemble(&listing), Ok(counter_with_lists()));
    checks.holds("no list without a number", !list(&COUNTER).unwrap().contains("list"));
    // The item's attributes use the lists in falling order, and a list in place has the name of none.
    let bytes = file(&text("list a 9 = 3 list b 5 = 3 item attribute x: one of a item attribute y: set of b item attribute z: one of 3"));
    let listing = list(&bytes).unwrap();
    let beginning = "list list5 5 = 3\nlist list9 9 = 3\n\
        item attribute a0: one of list9\nitem attribute a1: set of list5\nitem attribute a2: one of 3\n";
    checks.same("two lists and one in place", listing.get(..beginning.len()), Some(beginning));
    checks.same("the same bytes again", assemble(&listing), Ok(bytes));
}

/// Which numbers lists get.
fn numbers(checks: &mut Checks) {
    let cases: [(&str, &str, &[u32]); 14] = [
        ("list a = 2", "a", &[1]),
        ("list a = 2 list b = 3", "a b", &[1, 2]),
        ("list a = 2 list b = 3", "b a", &[2, 1]),
        ("list a = 2 list b = 3", "b", &[2]),
        ("list a 5 = 2 list b = 3 list c = 4", "a b c", &[5, 1, 2]),
        ("list a = 2 list b 1 = 3", "a b", &[2, 1]),
        ("list a = 2 list b 1 = 3", "a", &[2]),
        ("list a = 2 list b 2 = 3 list c = 4 list d 1 = 5", "a b c d", &[3, 2, 4, 1]),
        ("list a 2 = 2 list b = 3 list c = 4", "a b c", &[2, 1, 3]),
        ("list a 31 = 2 list b = 3 list c 30 = 4", "c a b", &[30, 31, 1]),
        ("list a 1 = 2 list b 2 = 3", "a b a", &[1, 2, 1]),
        ("list a = 2 list b 3 = 2 list c = 2 list d = 2 list e = 2", "a b c d e", &[1, 3, 2, 4, 5]),
        ("list a 007 = 2", "a", &[7]),
        ("list\na\n4\n=\n2", "a", &[4]),
    ];
    for (declared, used, expected) in cases {
        let attributes = |class: &str| -> String {
            used.split(' ').enumerate().map(|(place, list)| format!("{class} attribute x{place}: one of {list} ")).collect()
        };
        for class in ["user", "session", "item"] {
            let whole = format!("{declared} {} permission p {FORMULAS} allow p: true user u", attributes(class));
            let whole = if class == "user" {
                let values: Vec<String> = (0..expected.len()).map(|place| format!("x{place} = 0")).collect();
                format!("{whole}: {}", values.join(", "))
            } else {
                whole
            };
            checks.same(&whole, lists_of(&whole), Ok(expected.to_vec()));
        }
    }
    let last = format!("{} list z 1 = 2", text("list a = 2 item attribute x: one of a"));
    checks.same("a number fixed at the end of the text", lists_of(&last), Ok(vec![2]));
    let later = format!("user u list b = 2 session attribute x: one of b permission p list c = 3 {FORMULAS}
        item attribute y: one of c item attribute z: set of b item attribute w: one of 2 allow p: true");
    checks.same("lists between other declarations", lists_of(&later), Ok(vec![1, 2, 1, 0]));
}

/// 31 lists and no more, whether or not they are used, or their numbers fixed.
fn many(checks: &mut Checks) {
    let declared = |count: u32| -> String { (1..=count).map(|number| format!("list l{number} = 2 ")).collect() };
    let used = "item attribute x: one of l31 item attribute y: one of l1";
    checks.same("31 lists", lists_of(&text(&format!("{} {used}", declared(31)))), Ok(vec![31, 1]));
    checks.same("32 lists", lists_of(&text(&format!("{} {used}", declared(32)))), Err(1));
    let fixed = |number: u32| format!("{}\nlist z {number} = 2 item attribute x: one of z item attribute y: one of l30", declared(30));
    checks.same("30 lists and number 31", lists_of(&text(&fixed(31))), Ok(vec![31, 30]));
    checks.same("30 lists and number 1", lists_of(&text(&fixed(1))), Ok(vec![1, 31]));
    let all: String = (1..=31).map(|number| format!("list l{number} {} = 2 ", 32 - number)).collect();
    checks.same("all 31 numbers fixed", lists_of(&text(&format!("{all} {used}"))), Ok(vec![1, 31]));
    checks.same("one list more", lists_of(&text(&format!("{all}\nlist z = 2"))), Err(2));
}

/// The values of a list are those of its attributes, by name and by number.
fn values(checks: &mut Checks) {
    let whole = |lists: &str, kind: &str, set: &str, first: &str, second: &str| {
        assemble(&format!(
            "{lists} session attribute r: one of {kind} session attribute s: set of {set} user u
            session of u: r = {first}, s = {{{second}, 0}} permission p {FORMULAS}
            allow p: session.r = {first} and {second} in session.s and session.r in session.s"
        ))
    };
    let lists = "list role = {clerk, controller, robot}";
    let named = whole(lists, "role", "role", "robot", "controller");
    checks.holds("names of a list with a name", named.is_ok());
    checks.same("its numbers", whole(lists, "role", "role", "2", "1"), named.clone());
    checks.same("a list without names of values", whole("list role = 3", "role", "role", "2", "1"), named.clone());
    checks.same("another name", whole("list \"any role\" 1 = 3", "\"any role\"", "\"any role\"", "2", "1"), named);
    checks.holds("a name that is in another list", whole(lists, "role", "role", "clerk", "bank").is_err());
    checks.holds("a list without names has none", whole("list role = 3", "role", "role", "clerk", "1").is_err());
    checks.holds("a number beyond the list", whole(lists, "role", "role", "3", "1").is_err());
    checks.holds("sixteen values for one of", lists_of(&text("list a = 16 item attribute x: one of a")).is_ok());
    checks.holds("eight values for set of", lists_of(&text("list a = 8 item attribute x: set of a")).is_ok());
}

/// `list` is a word only where a declaration begins.
fn words(checks: &mut Checks) {
    let plain = "list a = {b, c} session attribute d: one of a user e session of e: d = b permission f
        allow f: let g = session.d = b g list h = 3 item attribute i: set of h item j: i = {} expect e never f";
    let plain = format!("{plain} {FORMULAS}");
    let expected = assemble(&plain);
    checks.same("the lists of this text", lists_of(&plain), Ok(vec![1, 2]));
    for name in ["a", "b", "d", "e", "f", "g", "h", "i"] {
        let word = |word: &str| match word.trim_matches(|letter: char| "{},:\n".contains(letter)) == name {
            true => word.replace(name, "list"),
            false => word.replace(&format!(".{name}"), ".list"),
        };
        let renamed = plain.split(' ').map(word).collect::<Vec<String>>().join(" ");
        checks.holds("something is renamed", renamed != plain);
        checks.same(&renamed, assemble(&renamed), expected.clone());
    }
    let quoted = plain.replace("item j:", "item \"list\":");
    checks.same("an item with a quoted name", assemble(&quoted), expected.clone());
    let expect = plain.replace("list a", "expect e can f list a");
    checks.same("a list after an expectation", assemble(&expect), expected);
    checks.same("a quoted word is none", lists_of("\"list\" a = 2"), Err(1));
    for name in ["new", "set", "of", "7", "a.b", ""] {
        checks.same(&format!("a list called `{name}`"), lists_of(&text(&format!("list {name} = 2"))), Err(1));
    }
    for name in ["expect", "never", "order", "βήτα", "\"new\"", "\"a list\""] {
        let declared = text(&format!("list {name} 3 = 2 item attribute x: one of {name}"));
        checks.same(&format!("a list called `{name}`"), lists_of(&declared), Ok(vec![3]));
    }
}

/// What can be compared.
fn comparisons(checks: &mut Checks) {
    let mut is = |formula: &str, good: bool| {
        let whole = format!(
            "list a = {{x, y}} list b = {{x, y}} user u permission p
            session attribute first: one of a session attribute all: set of a
            session attribute other: one of b session attribute place: one of {{x, y}}
            item attribute first: one of a item attribute others: set of b item attribute place: set of {{x, y, z}}
            allow p: true and\n{formula}\n{FORMULAS}"
        );
        // The formula is line 6; its sign may stand in line 7.
        let found = assemble(&whole).map(|_| ()).map_err(|(line, _)| line);
        let expected = if good { Ok(()) } else { Err(if formula.contains('\n') { 7 } else { 6 }) };
        checks.same(formula, found, expected);
    };
    for sign in ["=", "<", "<="] {
        is(&format!("session.first {sign} item.first"), true);
        is(&format!("session.first {sign} session.first"), true);
        is(&format!("session.first {sign} session.other"), false);
        is(&format!("session.other {sign} item.first"), false);
        is(&format!("session.other\n{sign} item.first"), false);
        is(&format!("session.place {sign} item.first"), false);
        is(&format!("item.first {sign} session.place"), false);
        is(&format!("session.place {sign} session.place"), true);
        is(&format!("y {sign} session.other"), true);
        is(&format!("item.first {sign} y"), true);
        is(&format!("item.first {sign} 15"), true);
    }
    is("item.first in session.all", true);
    is("session.other in session.all", false);
    is("session.other in item.others", true);
    is("session.place in item.place", true);
    is("session.place in session.all", false);
    is("session.first in item.place", false);
    is("y in item.others", true);
    is("1 in item.others", true);
    is("z in item.place", true);
    for sign in ["subset", "proper subset"] {
        is(&format!("session.all {sign} session.all"), true);
        is(&format!("session.all {sign} item.others"), false);
        is(&format!("item.others {sign} item.place"), false);
        is(&format!("item.place {sign} item.place"), true);
    }
}

/// Faults of lists; each text is bad in its second line.
fn bad(checks: &mut Checks) {
    for declarations in [
        "list a = 2\nlist a = 2",
        "list a = 2\nlist \"a\" = {x}",
        "list a 3 = 2\nlist b 3 = 2",
        "list a 3 = 2\nlist b 03 = 2",
        "\nlist a 0 = 2",
        "\nlist a 32 = 2",
        "\nlist a 99999999999 = 2",
        "\nlist a = 0",
        "\nlist a = 17",
        "\nlist a = {}",
        "\nlist a = {x, x}",
        "\nlist a = {x,}",
        "\nlist a = {x y}",
        "\nlist a = x",
        "\nlist a 2 = b",
        "\nlist a {x}",
        "\nlist a: {x}",
        "\nlist a 1 2 = 2",
        "\nlist = 2",
        "\nlist 3 = 2",
        "\nlist a = {a, b, c, d, e, f, g, h, i, j, k, l, m, n, o, p, q}",
        "\nitem attribute x: one of a",
        "\nitem attribute x: one of a list a = 2",
        "list a = 2\nitem attribute x: one of A",
        "list a = 2\nitem attribute x: one of {a} item attribute y: one of b",
        "list a = 9\nitem attribute x: set of a",
        "list a = {a, b, c, d, e, f, g, h, i}\nitem attribute x: one of a item attribute y: set of a",
        "list a = 2\nitem attribute x: a",
        "list a = 2\nitem attribute x: one of a 2 = 3",
        "list a = 2\nitem attribute x: one of list a",
        "list a = 8\nitem attribute x: set of a item attribute y: one of a",
    ] {
        checks.same(declarations, lists_of(&text(declarations)), Err(2));
    }
}

/// A starting session or item can't be called `list` without quotes; an unnamed one may stand before a list.
fn starting_names(checks: &mut Checks) {
    let whole = |rest: &str| assemble(&format!("user u {rest} permission p {FORMULAS} allow p: true"));
    checks.same("an item, then a list", whole("item list a = 2"), whole("item"));
    checks.same("a list called `list`", whole("item list list = 2 session of u"), whole("item session of u"));
    for rest in ["item list", "item list item", "session list of u", "item list: a = 2", "item list a"] {
        checks.holds(rest, whole(rest).is_err());
    }
    checks.same("quoted names", whole("item \"list\" session \"list\" of u"), whole("item session of u"));
}

/// The lists of the example on levels and categories, once written in place and once with names: the files differ in
/// the list numbers alone.
fn replaced(checks: &mut Checks) {
    let levels = "{unclassified, confidential, secret, top_secret}";
    let named = MAC_TEXT.replace(levels, "level").replace("set of {crypto, nuclear}", "set of category");
    let bytes = file(&format!("list level = {levels} list category = {{crypto, nuclear}} {named}"));
    let mut rules = read(&bytes).unwrap();
    let lists: Vec<u32> = rules.attributes.concat().iter().map(|attribute| attribute.list).collect();
    checks.same("the lists of the example", lists, vec![1, 2, 1, 2, 1, 2]);
    rules.attributes.iter_mut().flatten().for_each(|attribute| attribute.list = 0);
    checks.holds("the rest of the example", rules == read(&file(MAC_TEXT)).unwrap());
}
