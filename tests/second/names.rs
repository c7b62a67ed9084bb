//! Readable rule text, second part: what has been declared so far, and the declarations themselves.

use super::lists::{used, List};
use super::rules::{width, Attribute, RawRules};
use super::value::{encode, Value};
use super::words::{Bad, Word, Words};

/// The most attributes of a class, users, permissions, starting sessions and starting items that a file can hold.
const ATTRIBUTES: usize = 8;
const USERS: usize = 16;
const PERMISSIONS: usize = 8;
const STARTING: usize = 32;

/// Words that begin declarations, now or later, and so name no starting session or item without quotes.
const BEGINNINGS: [&str; 6] = ["expect", "list", "order", "amounts", "firm", "section"];

/// The classes as people write them.
pub const CLASSES: [&str; 3] = ["user", "session", "item"];

/// An attribute, its name, the place of the declared list that it uses, if any, and the names of its list's values; a
/// list given as a number has no names. The number of a declared list is known only once the whole text is.
pub struct Named {
    pub name: String,
    pub attribute: Attribute,
    pub list: Option<usize>,
    pub values: Vec<String>,
}

impl Named {
    /// The number that a name has in the list.
    pub fn number_of(&self, name: &str) -> Option<u32> {
        self.values.iter().position(|other| other == name).map(|place| place as u32)
    }
}

/// What has been declared so far.
pub struct Names {
    pub lists: Vec<List>,
    pub attributes: [Vec<Named>; 3],
    pub users: Vec<String>,
    /// The starting sessions and items; unnamed ones are called by their number.
    pub sessions: Vec<String>,
    pub items: Vec<String>,
    pub permissions: Vec<String>,
}

impl Names {
    pub fn none() -> Names {
        let attributes = [Vec::new(), Vec::new(), Vec::new()];
        let (users, sessions, items, permissions) = (Vec::new(), Vec::new(), Vec::new(), Vec::new());
        Names { lists: Vec::new(), attributes, users, sessions, items, permissions }
    }

    fn plain(&self, class: usize) -> Vec<Attribute> {
        self.attributes[class].iter().map(|named| named.attribute).collect()
    }
}

/// A new name beside the known ones, at most so many.
pub fn new_name(words: &mut Words, known: &[String], most: usize, what: &str) -> Result<String, Bad> {
    let line = words.line();
    let name = words.name()?;
    if known.contains(&name) {
        return Err((line, format!("there is already {what} `{name}`")));
    }
    if known.len() == most {
        return Err((line, format!("a file holds at most {most}: {what} `{name}` is one too many")));
    }
    Ok(name)
}

/// Whether a name of this class is kept for another number: only session 3 can be `session_3`.
fn is_kept(name: &str, class: usize, place: usize) -> bool {
    let number = name.strip_prefix(CLASSES[class]).and_then(|rest| rest.strip_prefix('_')).unwrap_or("");
    let counted = number == "0" || !number.is_empty() && !number.starts_with('0');
    counted && number.chars().all(|digit| digit.is_ascii_digit()) && number != place.to_string()
}

/// The name of the next starting session or item: its own, or one by its number where no name stands.
fn starting_name(words: &mut Words, known: &[String], class: usize) -> Result<String, Bad> {
    if words.peek_name().is_none() || words.is_one_of(&BEGINNINGS) {
        return Ok(format!("{}_{}", CLASSES[class], known.len()));
    }
    let line = words.line();
    let name = new_name(words, known, STARTING, &format!("a starting {}", CLASSES[class]))?;
    if is_kept(&name, class, known.len()) {
        return Err((line, format!("`{name}` is the name of another number, this is {}", known.len())));
    }
    Ok(name)
}

/// The values of a list: how many there are, or their names in braces.
pub fn values(words: &mut Words, most: u32) -> Result<(u32, Vec<String>), Bad> {
    let line = words.line();
    let mut names = Vec::new();
    let size = if let Word::Number(number) = *words.peek() {
        words.take();
        number
    } else {
        words.expect("{")?;
        loop {
            names.push(new_name(words, &names, most as usize, "a value")?);
            if !words.take_if(",") {
                break;
            }
        }
        words.expect("}")?;
        names.len() as u32
    };
    if size < 1 || size > most {
        return Err((line, format!("this list should have 1 to {most} values, not {size}")));
    }
    Ok((size, names))
}

/// `user attribute NAME: one of LIST` or `... set of LIST`, after the word `attribute`.
pub fn attribute(words: &mut Words, names: &mut Names, raw: &mut RawRules, class: usize) -> Result<(), Bad> {
    let line = words.line();
    let holders = [raw.users.count, raw.sessions.count, raw.items.count][class];
    if holders > 0 {
        return Err((line, format!("attributes come before the first {} that has them", CLASSES[class])));
    }
    let known: Vec<String> = names.attributes[class].iter().map(|named| named.name.clone()).collect();
    let name = new_name(words, &known, ATTRIBUTES, "an attribute")?;
    words.expect(":")?;
    let set = words.take_if("set");
    if !set {
        words.expect("one")?;
    }
    words.expect("of")?;
    let most = if set { 8 } else { 16 };
    let (list, (size, values)) = match words.peek_name() {
        None => (None, values(words, most)?),
        Some(_) => {
            let place = used(words, &names.lists, most)?;
            (Some(place), (names.lists[place].size, names.lists[place].values.clone()))
        }
    };
    let place = names.attributes[class].len();
    raw.classes[class].count += 1;
    raw.classes[class].kinds[place] = set as u8;
    raw.classes[class].sizes[place] = size as u8;
    names.attributes[class].push(Named { name, attribute: Attribute { set, size, list: 0 }, list, values });
    let wide = width(&names.plain(class));
    if wide > 8 {
        return Err((line, format!("the values of one {} now take {wide} bits, more than 8", CLASSES[class])));
    }
    Ok(())
}

/// One value of an attribute's list, by name or number.
fn member(words: &mut Words, named: &Named) -> Result<u32, Bad> {
    let number = match words.peek() {
        Word::Number(number) => Some(*number),
        _ => words.peek_name().and_then(|name| named.number_of(name)),
    };
    match number {
        Some(number) if number < named.attribute.size => {
            words.take();
            Ok(number)
        }
        _ => words.bad(&format!("{} is not in the list of `{}`", super::words::shown(words.peek()), named.name)),
    }
}

/// A set in braces.
fn members(words: &mut Words, named: &Named) -> Result<Value, Bad> {
    let mut set = vec![false; named.attribute.size as usize];
    words.expect("{")?;
    while !words.is_next("}") {
        set[member(words, named)? as usize] = true;
        if !words.take_if(",") {
            break;
        }
    }
    words.expect("}")?;
    Ok(Value::Set(set))
}

/// The value of a holder: every attribute of its class once, in any order, after a colon.
fn value(words: &mut Words, names: &Names, class: usize) -> Result<u8, Bad> {
    let line = words.line();
    let attributes = &names.attributes[class];
    let mut values: Vec<Option<Value>> = vec![None; attributes.len()];
    let mut more = words.take_if(":");
    while more {
        let line = words.line();
        let name = words.name()?;
        let place = match attributes.iter().position(|named| named.name == name) {
            Some(place) => place,
            None => return Err((line, format!("a {} has no attribute `{name}`", CLASSES[class]))),
        };
        if values[place].is_some() {
            return Err((line, format!("`{name}` is given twice")));
        }
        words.expect("=")?;
        let named = &attributes[place];
        values[place] = Some(match named.attribute.set {
            true => members(words, named)?,
            false => Value::Number(member(words, named)?),
        });
        more = words.take_if(",");
    }
    if let Some(place) = values.iter().position(Option::is_none) {
        return Err((line, format!("`{}` is not given", attributes[place].name)));
    }
    let values: Vec<Value> = values.into_iter().flatten().collect();
    Ok(encode(&names.plain(class), &values) as u8)
}

/// `user NAME: VALUES`, after the word `user`.
pub fn user(words: &mut Words, names: &mut Names, raw: &mut RawRules) -> Result<(), Bad> {
    let name = new_name(words, &names.users, USERS, "a user")?;
    raw.users.values[names.users.len()] = value(words, names, super::rules::USER)?;
    raw.users.count += 1;
    names.users.push(name);
    Ok(())
}

/// `session [NAME] of USER: VALUES`, after the word `session`.
pub fn session(words: &mut Words, names: &mut Names, raw: &mut RawRules) -> Result<(), Bad> {
    let line = words.line();
    let own = starting_name(words, &names.sessions, super::rules::SESSION)?;
    words.expect("of")?;
    let name = words.name()?;
    let owner = match names.users.iter().position(|user| *user == name) {
        Some(owner) => owner,
        None => return Err((line, format!("there is no user `{name}` so far"))),
    };
    let place = names.sessions.len();
    if place == STARTING {
        return Err((line, "a file holds at most 32 starting sessions".to_string()));
    }
    raw.sessions.owners[place] = owner as u8;
    raw.sessions.values[place] = value(words, names, super::rules::SESSION)?;
    raw.sessions.count += 1;
    names.sessions.push(own);
    Ok(())
}

/// `item [NAME]: VALUES`, after the word `item`.
pub fn item(words: &mut Words, names: &mut Names, raw: &mut RawRules) -> Result<(), Bad> {
    let line = words.line();
    let own = starting_name(words, &names.items, super::rules::ITEM)?;
    let place = names.items.len();
    if place == STARTING {
        return Err((line, "a file holds at most 32 starting items".to_string()));
    }
    raw.items.values[place] = value(words, names, super::rules::ITEM)?;
    raw.items.count += 1;
    names.items.push(own);
    Ok(())
}

/// `permission NAME`, after the word `permission`.
pub fn permission(words: &mut Words, names: &mut Names, raw: &mut RawRules) -> Result<(), Bad> {
    let name = new_name(words, &names.permissions, PERMISSIONS, "a permission")?;
    names.permissions.push(name);
    raw.permissions += 1;
    Ok(())
}
