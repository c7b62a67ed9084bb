//! The library against the second program: generated inputs, the same for the same seed. Usage: differential RULES_CASE INPUTS [SEED]
//! Ends with 1 at the first difference.

#[path = "../second/mod.rs"]
mod second;

mod compare;
mod fields;
mod generate;
mod library;
mod lists;
mod random;
mod spoil;
mod steps;
mod writing;

use compare::Tally;
use random::Random;

/// From so many inputs on every way in which a file can be refused must have come up.
const ENOUGH: u64 = 20_000;

/// All inputs; the number of the one that differs, and how.
fn run(program: &str, inputs: u64, seed: u64, tally: &mut Tally) -> Result<(), String> {
    for k in 0..inputs {
        let random = Random::new(seed + k);
        compare::input(tally, &random).map_err(|text| format!("input {k} of seed {seed}: {text}"))?;
    }
    let batch = 1000;
    for k in 0..(inputs + 10 * batch - 1) / (10 * batch) {
        writing::many(tally, &Random::new(seed ^ (k << 32)), program, batch.min(inputs))?;
    }
    match spoil::WAYS.iter().find(|way| !tally.ways.contains_key(*way)) {
        Some((number, way)) if inputs >= ENOUGH => Err(format!("no file was refused with {number} for {way}")),
        _ => Ok(()),
    }
}

fn main() {
    let words: Vec<String> = std::env::args().collect();
    let number = |k: usize| words.get(k).and_then(|word| word.parse().ok());
    let (program, inputs) = match (words.get(1), number(2)) {
        (Some(program), Some(inputs)) => (program, inputs),
        _ => {
            eprintln!("usage: differential RULES_CASE INPUTS [SEED]");
            std::process::exit(2);
        }
    };
    let mut tally = Tally::default();
    let result = run(program, inputs, number(3).unwrap_or(1), &mut tally);
    println!("{inputs} inputs; answers by number:");
    for (number, count) in tally.numbers.iter().enumerate() {
        println!("{number:4} {count:10}");
    }
    println!("files with a known fault:");
    for ((number, way), count) in &tally.ways {
        println!("{number:4} {count:10}  {way}");
    }
    println!("safe {}, leak {}, replayed {}, steps {}", tally.safe, tally.leak, tally.replayed, tally.steps);
    match result {
        Ok(()) => println!("no difference"),
        Err(text) => {
            println!("DIFFERENT {text}");
            std::process::exit(1);
        }
    }
}
