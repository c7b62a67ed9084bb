//! JSON (RFC 8259) on one line.

use std::fmt::{Display, Formatter, Result, Write};

#[derive(Clone)]
pub enum Json {
    Null,
    Bool(bool),
    Number(u64),
    Text(String),
    List(Vec<Json>),
    Object(Vec<(&'static str, Json)>),
}

impl Json {
    pub fn text(text: &str) -> Json {
        Json::Text(text.to_string())
    }
}

impl Display for Json {
    fn fmt(&self, out: &mut Formatter) -> Result {
        match self {
            Json::Null => out.write_str("null"),
            Json::Bool(value) => write!(out, "{value}"),
            Json::Number(number) => write!(out, "{number}"),
            Json::Text(text) => quoted(out, text),
            Json::List(parts) => {
                out.write_char('[')?;
                for (number, part) in parts.iter().enumerate() {
                    write!(out, "{}{part}", comma(number))?;
                }
                out.write_char(']')
            }
            Json::Object(members) => {
                out.write_char('{')?;
                for (number, (key, value)) in members.iter().enumerate() {
                    out.write_str(comma(number))?;
                    quoted(out, key)?;
                    write!(out, ":{value}")?;
                }
                out.write_char('}')
            }
        }
    }
}

/// What stands before a part: nothing before the first one.
fn comma(number: usize) -> &'static str {
    if number == 0 {
        ""
    } else {
        ","
    }
}

fn quoted(out: &mut Formatter, text: &str) -> Result {
    out.write_char('"')?;
    for c in text.chars() {
        match c {
            '"' | '\\' => write!(out, "\\{c}")?,
            _ if c.is_control() => write!(out, "\\u{:04x}", u32::from(c))?,
            _ => out.write_char(c)?,
        }
    }
    out.write_char('"')
}
