//! A host in Rust: reads the rule file that its argument names, asks three questions, replays the leak and runs it by the monitor. It prints what
//! examples/host.c prints.

/// The library's calls, safe. A host takes this file over.
#[allow(dead_code)]
#[path = "../front/library.rs"]
mod rights;

const CELLS: usize = 64;

/// The number that was given, or 0.
fn number(r: Result<(), u32>) -> u32 {
    r.err().unwrap_or(0)
}

/// Prints the answer to a question; returns the rows of a leak, none where it is safe or refused.
fn ask(what: &str, file: &[u8], question: &[u8]) -> Vec<u64> {
    match rights::analyse(file, question) {
        Err(n) => {
            println!("{what}: refused, {n}");
            Vec::new()
        }
        Ok(a) => {
            let (word, rows) = match a.verdict {
                rights::Verdict::Safe => ("safe", Vec::new()),
                rights::Verdict::Leak(rows) => ("leak", rows),
            };
            println!("{what}: {word}, {} pairs of user and session value, {} values of an item", a.pairs, a.values);
            for row in &rows {
                let [kind, actor, target, value] = rights::parts(*row);
                println!("    {kind} {actor} {target} {value}");
            }
            rows
        }
    }
}

fn main() -> std::io::Result<()> {
    let path = std::env::args().nth(1).expect("a rule file");
    let file = std::fs::read(path)?;
    // any item, permission 0; who: user 2, whom the counter file does not have, user 1, user 0
    let (user_2, user_1, user_0) = ([0x42, 0x80, 0x00], [0x41, 0x80, 0x00], [0x40, 0x80, 0x00]);

    println!("reading: {}", number(rights::read(&file)));
    let (came, bits) = rights::read_bits(&file);
    println!("counting the bits: {}, {bits} bits", number(came));
    match rights::write_back(&file) {
        Ok(again) => println!("writing back: 0, {} bytes", if again == file { "the same" } else { "other" }),
        Err(n) => println!("writing back: {n}"),
    }

    ask("user 2", &file, &user_2);
    ask("user 1", &file, &user_1);
    let rows = ask("user 0", &file, &user_0);
    println!("replaying the leak: {}", number(rights::replay(&file, &user_0, &rows, CELLS)));
    println!("replaying it for user 1: {}", number(rights::replay(&file, &user_1, &rows, CELLS)));

    let mut live = rights::Live::start(&file, CELLS, CELLS).expect("a start");
    println!("step by step: {}", number(rows.iter().try_for_each(|row| live.step(*row))));
    let mut live = rights::Live::start(&file, CELLS, CELLS).expect("a start");
    let (done, came) = live.steps(&rows);
    println!("all steps at once: {}, {}", number(came), if done == rows.len() { "all done" } else { "not all done" });
    println!("user 1 opens with member 0: {}", number(live.step(rights::row(rights::OPEN, 1, live.next_session, 1))));
    Ok(())
}
