//! Readable text: names of starting sessions and items, quoted names, other alphabets, and expectations.

use super::{file, Checks};
use crate::second::analyse::{analyse, Verdict};
use crate::second::expectation::Asked;
use crate::second::read::read;
use crate::second::text::{assemble, assemble_with_expectations, list};

const WHOLESALER: &str = include_str!("../../../examples/wholesaler.rules.txt");

pub fn all(checks: &mut Checks) {
    wholesaler(checks);
    names(checks);
    quotes(checks);
    alphabets(checks);
    old_names(checks);
    expectations(checks);
    bad_names(checks);
    bad_expectations(checks);
}

/// A small text: two users, two starting sessions, three items and two permissions; then what is added.
fn text(sessions: &str, items: &str, added: &str) -> String {
    format!(
        "item attribute n: one of 4 user anna user ben {sessions} {items} permission view permission agree\n{FORMULAS}
        allow view: item.n = 1 allow agree: false\n{added}"
    )
}

const FORMULAS: &str = "open session: true change session: true make item: true change item: true";
const SESSIONS: &str = "session of ben session of anna";
const ITEMS: &str = "item: n = 1 item: n = 2 item: n = 3";

/// The small text with unnamed sessions and items, and what is added.
fn plain(added: &str) -> String {
    text(SESSIONS, ITEMS, added)
}

/// The questions of a text's expectations, or the line where it is bad.
fn asked(text: &str) -> Result<Vec<Asked>, usize> {
    assemble_with_expectations(text).map(|(_, asked)| asked).map_err(|(line, _)| line)
}

/// The example of docs/TEXT.md.
fn wholesaler(checks: &mut Checks) {
    let bytes = file(WHOLESALER);
    // Head 40 bits, 6 attributes of 12, 4 users of 5, a session of 4 and 5, 3 items of 4; then 8 formulas of 8 bits
    // and 42 nodes of 20: 1,057 bits.
    checks.same("bytes of the wholesaler", bytes.len(), 133);
    let nodes: Vec<usize> = read(&bytes).unwrap().formulas.iter().map(Vec::len).collect();
    checks.same("nodes of the wholesaler", nodes, vec![3, 3, 5, 15, 1, 5, 5, 5]);
    checks.same("the wholesaler listed and assembled", assemble(&list(&bytes).unwrap()), Ok(bytes.clone()));
    let old = |line: &&str| !line.starts_with("expect ");
    let bare: Vec<&str> = WHOLESALER.lines().filter(old).collect();
    let bare = bare.join("\n").replace("session night_run of", "session of");
    let unnamed = |text: String, number: &str| text.replace(&format!("item line_{number}:"), "item:");
    let bare = ["4698", "4711", "4712"].into_iter().fold(bare, unnamed);
    checks.same("the wholesaler without names", assemble(&bare), Ok(bytes.clone()));
    let asked = assemble_with_expectations(WHOLESALER).unwrap().1;
    let expected = vec![
        (false, [0x42, 0x01, 0x20]),
        (true, [0x40, 0x80, 0x20]),
        (true, [0x41, 0x80, 0x20]),
        (true, [0x41, 0x01, 0x00]),
        (true, [0x43, 0x80, 0x20]),
        (false, [0x00, 0x80, 0x30]),
    ];
    checks.same("what the wholesaler expects", asked.clone(), expected);
    // Pairs: clerks have 1 role, carla 2 and the robot 3, each with the subsets of their ledgers: 4 + 2 + 16 + 24.
    // An item keeps its ledger and goes through 3 states; new ones have any of 3 ledgers. The robot opens sessions as a
    // controller, so the fifth is not met.
    for (number, (never, question)) in asked.iter().enumerate() {
        let answer = analyse(&bytes, question, 8192);
        let values = if question[1] == 0x80 { 9 } else { 3 };
        checks.same("counts of the wholesaler", (answer.number, answer.pairs, answer.values), (0, 46, values));
        let met = answer.verdict == if *never { Verdict::Safe } else { Verdict::Leak };
        checks.same(&format!("expectation {number} is met"), met, number != 4);
    }
}

/// Names of starting sessions and items leave nothing in the file.
fn names(checks: &mut Checks) {
    let bytes = file(&plain(""));
    let named = [
        ("session night of ben session day of anna", "item a: n = 1 item b: n = 2 item c: n = 3"),
        ("session ben of ben session anna of anna", "item ben: n = 1 item: n = 2 item view: n = 3"),
        ("session session_0 of ben session session_1 of anna", "item item_0: n = 1 item: n = 2 item item_2: n = 3"),
        ("session session_01 of ben session of anna", "item session_5: n = 1 item item_x: n = 2 item item_: n = 3"),
        ("session \"list\" of ben session on of anna", "item any: n = 1 item \"new\": n = 2 item \"list\": n = 3"),
        ("session \"of\" of ben session of anna", "item \"attribute\": n = 1 item can: n = 2 item _: n = 3"),
    ];
    for (sessions, items) in named {
        checks.same(&format!("{sessions} {items}"), assemble(&text(sessions, items, "")), Ok(bytes.clone()));
    }
    let without = |rest: &str| format!("user u {rest} permission p {FORMULAS} allow p: true");
    let two = Ok(file(&without("item item session of u")));
    checks.same("items without values", assemble(&without("item x item \"y z\" session s of u")), two.clone());
    checks.same("an item, then an expectation", assemble(&without("item item expect u can p session of u")), two);
}

/// Names in double quotes.
fn quotes(checks: &mut Checks) {
    let quoted = "item attribute \"n\": one of 4 user \"anna\" user ben session of \"ben\" session of anna
        item: \"n\" = 1 item: n = 2 item: n = 3 permission \"mark # agreed\" permission \"allow\" # \"no name
        open session: true change session: true make item: true change item: true
        allow \"mark # agreed\": item.\"n\" = 1 allow \"allow\": false";
    checks.same("quoted names", assemble(quoted), Ok(file(&plain(""))));
    let values = |list: &str, value: &str, formula: &str| {
        let holders = format!("session attribute s: one of {list} user u session of u: s = {value}");
        assemble(&format!("{holders} permission p {FORMULAS} allow p: {formula}"))
    };
    let found = values("{\"user\", \"one of\", b}", "\"one of\"", "\"user\" = session.s");
    checks.same("quoted values", found, values("3", "1", "0 = session.s"));
    let found = values("3", "1", "let \"not\" = 0 = session.s let \"or\" = not \"not\" \"or\" or \"not\" and\"or\"");
    checks.same("quoted parts", found, values("3", "1", "let a = 0 = session.s let b = not a b or a and b"));
    let found = values("{\"=\", \"in\"}", "\"in\"", "session.s = \"in\"");
    checks.same("signs in quotes", found, values("2", "1", "session.s = 1"));
}

/// Letters of any alphabet, and a byte order mark.
fn alphabets(checks: &mut Checks) {
    let bytes = file(&plain(""));
    let greek = text("session νύχτα of ben session 夜 of anna", "item Ж1: n = 1 item é_: n = 2 item ßß: n = 3", "");
    checks.same("names in other alphabets", assemble(&greek), Ok(bytes.clone()));
    checks.same("a byte order mark", assemble(&format!("\u{FEFF}{greek}")), Ok(bytes));
    let users = |names: &str| assemble(&format!("{names} permission p {FORMULAS} allow p: true"));
    checks.holds("capital letters differ", users("user Änne user änne").is_ok());
    checks.holds("the same name", users("user Änne user \"Änne\"").is_err());
    checks.holds("two byte order marks", assemble(&format!("\u{FEFF}\u{FEFF}{}", plain(""))).is_err());
    for name in ["٣", "a²", "5é", "a-b", "a\u{200D}b", "\u{FEFF}"] {
        checks.holds(&format!("{name:?} as a name"), users(&format!("user {name}")).is_err());
    }
}

/// The words of expectations are names elsewhere, as they always were.
fn old_names(checks: &mut Checks) {
    let names = ["expect", "never", "can", "on", "anyone", "any", "list", "order", "amounts", "firm", "section"];
    let old = |name: &str| {
        format!(
            "session attribute {name}: one of {{{name}, b}} user {name} session of {name}: {name} = {name}
            permission {name} {FORMULAS} allow {name}: let {name} = {name} = session.{name}
            let c = {name} or not {name} {name}"
        )
    };
    let bytes = file(&old("a"));
    for name in names {
        checks.same(&format!("{name} as an old name"), assemble(&old(name)), Ok(bytes.clone()));
        let more = format!("{} expect user {name} never {name} expect \"{name}\" can {name} on any item", old(name));
        let expected = vec![(true, [0x40, 0x80, 0]), (false, [0x40, 0x80, 0])];
        checks.same(&format!("{name} in an expectation"), asked(&more), Ok(expected));
    }
}

/// What expectations ask.
fn expectations(checks: &mut Checks) {
    let named = text("session night of ben session of anna", "item line: n = 1 item: n = 2 item can: n = 3", "");
    for (added, expected) in [
        ("expect anna never view", (true, [0x40, 0x80, 0x00])),
        ("expect ben can agree", (false, [0x41, 0x80, 0x10])),
        ("expect user 1\ncan\nagree on any item", (false, [0x41, 0x80, 0x10])),
        ("expect anyone never agree on line", (true, [0x80, 0x00, 0x10])),
        ("expect night never view on item line", (true, [0x00, 0x00, 0x00])),
        ("expect session \"night\" can view on item 1", (false, [0x00, 0x01, 0x00])),
        ("expect session_1 can view on item_1", (false, [0x01, 0x01, 0x00])),
        ("expect session session_1 can agree on item can", (false, [0x01, 0x02, 0x10])),
        ("expect session 0 never agree on item 2", (true, [0x00, 0x02, 0x10])),
        ("expect user \"anna\" never \"view\" on \"can\"", (true, [0x40, 0x02, 0x00])),
    ] {
        checks.same(added, asked(&format!("{named} {added}")), Ok(vec![expected]));
        checks.same(added, asked(&format!("{added} {named}")), Ok(vec![expected]));
        checks.same(added, assemble(&format!("{named} {added}")), assemble(&plain("")));
    }
    let twice = plain("expect ben never view expect ben can view");
    checks.same("both ways", asked(&twice), Ok(vec![(true, [0x41, 0x80, 0]), (false, [0x41, 0x80, 0])]));
    // A permission is called by any name, also by a word of expectations.
    let words = |added: &str| {
        let permissions = "permission can permission never permission on permission expect permission any";
        let allowed = "allow can: true allow never: true allow on: true allow expect: true allow any: true";
        asked(&format!("user can user any user anyone {permissions} item item x item on {FORMULAS} {allowed} {added}"))
    };
    for (added, expected) in [
        ("expect user can can can", (false, [0x40, 0x80, 0x00])),
        ("expect \"any\" never never", (true, [0x41, 0x80, 0x10])),
        ("expect user anyone never on on x", (true, [0x42, 0x01, 0x20])),
        ("expect anyone can expect on item on", (false, [0x80, 0x02, 0x30])),
        ("expect \"anyone\" can any on any item", (false, [0x42, 0x80, 0x40])),
        ("expect user any never any on \"on\"", (true, [0x41, 0x02, 0x40])),
    ] {
        checks.same(added, words(added), Ok(vec![expected]));
    }
    for added in ["expect can can can", "expect any never never", "expect anyone never on on on"] {
        checks.holds(&format!("{added}, without a class word"), words(added).is_err());
    }
}

/// Bad names of sessions and items, and bad quotes; all in the first line.
fn bad_names(checks: &mut Checks) {
    for sessions in [
        "session night of ben session night of anna",
        "session night of ben session \"night\" of anna",
        "session session_1 of ben session of anna",
        "session session_40 of ben session of anna",
        "session expect of ben session of anna",
        "session firm of ben session of anna",
        "session new of ben session of anna",
        "session 3 of ben session of anna",
        "session night day of ben session of anna",
        "session night: of ben session of anna",
        "session \"\" of ben session of anna",
        "session \"a\tb\" of ben session of anna",
        "session \"a\u{85}b\" of ben session of anna",
        "session \"a\rb\" of ben session of anna",
        "session \"a of ben session of anna",
        "session \"a\u{200b}b\" of ben session of anna",
        "session \" a\" of ben session of anna",
        "session \"a  b\" of ben session of anna",
        "session \"12\" of ben session of anna",
        "session night\u{3164} of ben session of anna",
        "session of ben session of anna # a\rb",
    ] {
        let found = assemble(&text(sessions, ITEMS, "")).map_err(|(line, _)| line);
        checks.same(&format!("{sessions:?}"), found, Err(1));
    }
    for items in [
        "item a: n = 1 item a: n = 2 item: n = 3",
        "item item_1: n = 1 item: n = 2 item: n = 3",
        "item: n = 1 item: n = 2 item item_3: n = 3",
        "item list: n = 1 item: n = 2 item: n = 3",
        "item section: n = 1 item: n = 2 item: n = 3",
        "item a",
        "item 1: n = 1",
    ] {
        let found = assemble(&text(SESSIONS, items, "")).map_err(|(line, _)| line);
        checks.same(items, found, Err(1));
    }
    let many = |count: usize| (0..count).map(|k| format!("item i{k}: n = 1 ")).collect::<String>();
    checks.holds("32 named items", assemble(&text(SESSIONS, &many(32), "")).is_ok());
    checks.holds("33 named items", assemble(&text(SESSIONS, &many(33), "")).is_err());
    let value = |value: &str| {
        let text = format!("session attribute s: one of {{\"user\", b}} user u session of u: s = {value}");
        assemble(&format!("{text}\npermission p {FORMULAS} allow p: true")).map(|_| ()).map_err(|(line, _)| line)
    };
    checks.same("a quoted value", value("\"user\""), Ok(()));
    checks.same("a reserved word for a quoted value", value("user"), Err(1));
    let reserved = plain("").replace("allow agree: false", "allow agree: let \"item\" = true item");
    checks.same("a reserved word for a quoted part", assemble(&reserved).map_err(|(line, _)| line), Err(3));
}

/// Bad expectations; each stands in line 4, or shows at the word in line 5.
fn bad_expectations(checks: &mut Checks) {
    for added in [
        "expect carla never view",
        "expect anna never see",
        "expect anna view",
        "expect anna not view",
        "expect never view",
        "expect anna never view on line",
        "expect anna never view on item line",
        "expect anna never view on anna",
        "expect user 2 never view",
        "expect session 2 never view",
        "expect session anna never view",
        "expect item 0 never view",
        "expect permission view",
        "expect anna never view on item 3",
        "expect anna never view on item_3",
        "expect anna never view on user anna",
        "expect 0 never view",
        "expect anna never 0",
        "expect anna never view on 0",
        "expect anna never on item_0",
        "expect any never view",
        "expect anyone never view on anyone",
        "expect \"anyone\" never view",
        "expect user anyone never view",
        "expect anna \"never\" view",
        "expect anna never view on any",
        "expect anna never view on \"any item\"",
        "expect anna never view \"on\" item_0",
        "\"expect\" anna never view",
        "expect anna, ben never view",
        "expect anna never view: true",
        "expect anna never view on item",
        "expect",
    ] {
        let found = asked(&plain(added));
        checks.same(added, found, Err(4));
        let found = asked(&plain(&format!("{added}\nexpect anna can view")));
        checks.holds(&format!("{added}, then a good one: {found:?}"), found == Err(4) || found == Err(5));
    }
    let shared = text("session ben of ben session anna of ben", ITEMS, "expect ben never view");
    checks.same("a user and a session", asked(&shared), Err(4));
    let shared = text("session ben of ben", ITEMS, "expect session ben never view expect user ben can view");
    checks.same("each by its class", asked(&shared), Ok(vec![(true, [0, 0x80, 0]), (false, [0x41, 0x80, 0])]));
    checks.same("the word `any`", asked(&plain("expect anna never view on any\nitem: n = 1")), Err(5));
}
