//! Readable rule text: lists with names, their declarations, their uses and their numbers.

use super::names::{new_name, values, Names};
use super::rules::RawRules;
use super::words::{Bad, Word, Words};

/// The most lists with names that a text can declare; they are numbered from 1 to this.
const LISTS: usize = 31;

/// A declared list: the number that the text fixes for it, if any, how many values it has, and their names, if any.
pub struct List {
    pub name: String,
    pub fixed: Option<u32>,
    pub size: u32,
    pub values: Vec<String>,
}

/// `NAME [NUMBER] = NUMBER` or `NAME [NUMBER] = {NAME, ...}`, after the word `list`.
pub fn declaration(words: &mut Words, lists: &mut Vec<List>) -> Result<(), Bad> {
    let known: Vec<String> = lists.iter().map(|list| list.name.clone()).collect();
    let name = new_name(words, &known, LISTS, "a list")?;
    let fixed = fixed_number(words, lists)?;
    words.expect("=")?;
    let (size, values) = values(words, 16)?;
    lists.push(List { name, fixed, size, values });
    Ok(())
}

/// The number after a list's name, if one stands there.
fn fixed_number(words: &mut Words, lists: &[List]) -> Result<Option<u32>, Bad> {
    let number = match *words.peek() {
        Word::Number(number) => number,
        _ => return Ok(None),
    };
    if number < 1 || number > LISTS as u32 {
        return words.bad(&format!("the number of a list is 1 to {LISTS}, not {number}"));
    }
    if let Some(other) = lists.iter().find(|list| list.fixed == Some(number)) {
        return words.bad(&format!("list `{}` has already the number {number}", other.name));
    }
    words.take();
    Ok(Some(number))
}

/// The place of the list whose name stands next; it has at most so many values.
pub fn used(words: &mut Words, lists: &[List], most: u32) -> Result<usize, Bad> {
    let line = words.line();
    let name = words.name()?;
    let place = match lists.iter().position(|list| list.name == name) {
        Some(place) => place,
        None => return Err((line, format!("there is no list `{name}` so far"))),
    };
    let size = lists[place].size;
    if size > most {
        return Err((line, format!("list `{name}` has {size} values, and {most} is the most here")));
    }
    Ok(place)
}

/// The numbers of all lists of a text: the fixed ones, and for each other list the lowest number that no list of the
/// text fixes and no list before it took.
fn numbers(lists: &[List]) -> Vec<u32> {
    let mut taken: Vec<u32> = lists.iter().filter_map(|list| list.fixed).collect();
    let mut numbers = Vec::new();
    for list in lists {
        let lowest = (1..).find(|number| !taken.contains(number));
        let number = list.fixed.or(lowest).expect("a number is free");
        taken.push(number);
        numbers.push(number);
    }
    numbers
}

/// Puts the list numbers into the rules, once the whole text is known; a list that is written in place has number 0.
pub fn number_all(names: &Names, raw: &mut RawRules) {
    let numbers = numbers(&names.lists);
    for (class, attributes) in names.attributes.iter().enumerate() {
        for (place, named) in attributes.iter().enumerate() {
            raw.classes[class].lists[place] = named.list.map_or(0, |list| numbers[list] as u8);
        }
    }
}
