//! The stored questions of tests/vectors/questions.txt through the library. Each leak is replayed by the library and by the second program, and run
//! as a list of steps.

#[path = "../differential/library.rs"]
#[allow(dead_code)]
mod library;
#[path = "../second/mod.rs"]
mod second;

use second::analyse::rows_needed;
use second::monitor::parts;
use second::read::read;
use second::rules::{width, ITEM, SESSION};
use second::run::{run, Step};
use second::text::assemble;

/// The file of the rules that a line names.
fn rules(name: &str) -> Result<Vec<u8>, String> {
    let places = [format!("examples/{name}.rules.txt"), format!("tests/vectors/policies/{name}.rules.txt")];
    let text = places.iter().find_map(|place| std::fs::read_to_string(place).ok()).ok_or(format!("no rules {name}"))?;
    assemble(&text).map_err(|(line, reason)| format!("{name}, line {line}: {reason}"))
}

/// A stored question: its bytes, and the words of its answer.
fn parse(line: &str) -> (Vec<u8>, Vec<&str>) {
    let words: Vec<&str> = line.split_whitespace().collect();
    let bytes = words.iter().map_while(|word| u8::from_str_radix(word, 16).ok()).collect::<Vec<u8>>();
    let answer = words[bytes.len()..].to_vec();
    (bytes, answer)
}

/// The answer of the library, as the table has it, and the rows of a leak.
fn told(file: &[u8], question: &[u8]) -> (Vec<String>, Vec<u64>) {
    let needed = read(file).map(|rules| rows_needed(width(&rules.attributes[SESSION]), width(&rules.attributes[ITEM])));
    let mut rows = vec![0; needed.unwrap_or(0) as usize];
    let told = library::analyse(file, question, &mut rows);
    rows.truncate(told.rows as usize);
    let line = match (told.number, told.verdict) {
        (0, library::SAFE) => format!("SAFE {} {}", told.pairs, told.values),
        (0, library::LEAK) => format!("LEAK {} {}", told.pairs, told.values),
        (number, library::NONE) => format!("REFUSED {number}"),
        (number, verdict) => format!("number {number} with verdict {verdict}"),
    };
    (line.split(' ').map(str::to_string).collect(), rows)
}

/// Whether the rows replay by both, and every one of them is carried out in a run.
fn leaks(file: &[u8], question: &[u8], rows: &[u64]) -> bool {
    let cells = || (vec![3; 32 + rows.len()], vec![5; 32 + rows.len()]);
    let ((mut a, mut b), (mut c, mut d)) = (cells(), cells());
    let steps: Vec<Step> = rows
        .iter()
        .map(|row| parts(*row))
        .map(|p| Step { kind: p.kind, actor: p.actor, target: p.target, value: p.value })
        .collect();
    let carried_out = read(file).map(|rules| run(&rules, &steps).1);
    library::replay(file, question, rows, &mut a, &mut b) == 0
        && second::replay::replay(file, question, rows, &mut c, &mut d) == 0
        && carried_out.map_or(false, |done| done.iter().all(|step| *step))
}

/// A question of the table; how the answer differs, if it does.
fn case(file: &[u8], line: &str) -> Result<(), String> {
    let (question, answer) = parse(line);
    let (words, rows) = told(file, &question);
    if !answer.starts_with(&words.iter().map(String::as_str).collect::<Vec<_>>()) {
        return Err(format!("{line}\n    is answered {}", words.join(" ")));
    }
    if words[0] == "LEAK" && !leaks(file, &question, &rows) {
        return Err(format!("{line}\n    the leak does not replay"));
    }
    match answer.get(words.len()..words.len() + 2) {
        Some(["rows", count]) if *count != rows.len().to_string() => Err(format!("{line}\n    has {} rows", rows.len())),
        _ => Ok(()),
    }
}

fn main() {
    let table = std::fs::read_to_string("tests/vectors/questions.txt").expect("the table");
    let (mut file, mut asked, mut wrong) = (Vec::new(), 0, 0);
    for line in table.lines().filter(|line| !line.is_empty() && !line.starts_with('#')) {
        let result = match line.strip_prefix("rules ") {
            Some(name) => rules(name).map(|bytes| file = bytes),
            None => {
                asked += 1;
                case(&file, line)
            }
        };
        if let Err(text) = result {
            println!("{text}");
            wrong += 1;
        }
    }
    println!("{asked} stored questions, {wrong} wrong");
    std::process::exit(i32::from(wrong > 0));
}
