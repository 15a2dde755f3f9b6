//! JSON, as RFC 8259 has it.

use std::fmt::{self, Display, Formatter, Write};
use std::io;

/// A value, whose text is on one line. Addresses and words are texts in hexadecimal: a reader that takes every number for a
/// double would round them.
pub enum Json {
    Null,
    Bool(bool),
    Number(u64),
    Text(String),
    Array(Vec<Json>),
    /// Its members, in this order.
    Object(Vec<(&'static str, Json)>),
}

impl Json {
    pub fn text(text: impl Display) -> Json {
        Json::Text(text.to_string())
    }

    /// An address, as `0x1000`.
    pub fn address(address: u64) -> Json {
        Json::Text(format!("{address:#x}"))
    }

    /// A word, by its eight digits.
    pub fn word(word: u32) -> Json {
        Json::Text(format!("{word:08x}"))
    }

    pub fn array(items: impl IntoIterator<Item = Json>) -> Json {
        Json::Array(items.into_iter().collect())
    }

    /// What there is, or null.
    pub fn maybe(value: Option<Json>) -> Json {
        value.unwrap_or(Json::Null)
    }
}

impl Display for Json {
    fn fmt(&self, f: &mut Formatter<'_>) -> fmt::Result {
        match self {
            Json::Null => f.write_str("null"),
            Json::Bool(value) => write!(f, "{value}"),
            Json::Number(number) => write!(f, "{number}"),
            Json::Text(text) => quoted(text, f),
            Json::Array(items) => {
                f.write_char('[')?;
                for (at, item) in items.iter().enumerate() {
                    write!(f, "{}{item}", if at == 0 { "" } else { ", " })?;
                }
                f.write_char(']')
            }
            Json::Object(members) => {
                f.write_char('{')?;
                for (at, (name, value)) in members.iter().enumerate() {
                    f.write_str(if at == 0 { "" } else { ", " })?;
                    quoted(name, f)?;
                    write!(f, ": {value}")?;
                }
                f.write_char('}')
            }
        }
    }
}

/// The items of an array or the members of an object that is written as they come, each on a line of its own.
#[derive(Default)]
pub struct Items {
    any: bool,
}

impl Items {
    pub fn add(&mut self, item: impl Display, output: &mut dyn io::Write) -> io::Result<()> {
        let comma = if self.any { "," } else { "" };
        self.any = true;
        write!(output, "{comma}\n{item}")
    }
}

/// What stands for a file that can't be read.
pub fn unread(name: &str, said: &str) -> Json {
    Json::Object(vec![("file", Json::text(name)), ("error", Json::text(said))])
}

/// A text in quotation marks. Control characters are escaped, those behind ASCII too, so that a terminal obeys none.
fn quoted(text: &str, f: &mut Formatter<'_>) -> fmt::Result {
    f.write_char('"')?;
    for letter in text.chars() {
        match letter {
            '"' | '\\' => write!(f, "\\{letter}")?,
            '\n' => f.write_str("\\n")?,
            '\r' => f.write_str("\\r")?,
            '\t' => f.write_str("\\t")?,
            _ if letter.is_control() => write!(f, "\\u{:04x}", u32::from(letter))?,
            _ => f.write_char(letter)?,
        }
    }
    f.write_char('"')
}
