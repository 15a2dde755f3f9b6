//! Reads JSON as strictly as RFC 8259 has it.

// Each test takes the part that it needs.
#![allow(dead_code)]

use std::iter::Peekable;
use std::str::Chars;

/// A value. Numbers are those that the command writes: whole ones.
#[derive(Clone, Debug, PartialEq)]
pub enum Value {
    Null,
    Bool(bool),
    Number(u64),
    Text(String),
    Array(Vec<Value>),
    Object(Vec<(String, Value)>),
}

impl Value {
    /// Reads a whole document.
    pub fn read(text: &str) -> Value {
        let mut reader = Reader(text.chars().peekable());
        let value = reader.value();
        reader.space();
        assert_eq!(reader.0.next(), None, "something stands behind the document");
        value
    }

    pub fn get(&self, name: &str) -> &Value {
        let Value::Object(members) = self else { panic!("{self:?} has no members") };
        let found: Vec<&Value> = members.iter().filter(|(own, _)| own == name).map(|(_, value)| value).collect();
        assert_eq!(found.len(), 1, "{name} in {self:?}");
        found[0]
    }

    pub fn has(&self, name: &str) -> bool {
        matches!(self, Value::Object(members) if members.iter().any(|(own, _)| own == name))
    }

    pub fn items(&self) -> &[Value] {
        let Value::Array(items) = self else { panic!("{self:?} is no array") };
        items
    }

    pub fn text(&self) -> &str {
        let Value::Text(text) = self else { panic!("{self:?} is no text") };
        text
    }

    pub fn number(&self) -> u64 {
        let Value::Number(number) = self else { panic!("{self:?} is no number") };
        *number
    }
}

struct Reader<'a>(Peekable<Chars<'a>>);

impl Reader<'_> {
    fn space(&mut self) {
        while self.0.next_if(|letter| " \t\r\n".contains(*letter)).is_some() {}
    }

    /// Takes a letter where it is the next one behind spaces.
    fn has(&mut self, letter: char) -> bool {
        self.space();
        self.0.next_if_eq(&letter).is_some()
    }

    fn needs(&mut self, letter: char) {
        assert!(self.has(letter), "{letter} is missing before {:?}", self.0.clone().take(40).collect::<String>());
    }

    fn value(&mut self) -> Value {
        self.space();
        match self.0.peek() {
            Some('"') => Value::Text(self.text()),
            Some('[') => Value::Array(self.list(']', Self::value)),
            Some('{') => {
                let members = self.list('}', |reader| {
                    reader.space();
                    let name = reader.text();
                    reader.needs(':');
                    (name, reader.value())
                });
                Value::Object(members)
            }
            _ => self.plain(),
        }
    }

    fn list<T>(&mut self, end: char, item: impl Fn(&mut Self) -> T) -> Vec<T> {
        self.0.next();
        let mut items = Vec::new();
        while !self.has(end) {
            if !items.is_empty() {
                self.needs(',');
            }
            items.push(item(self));
        }
        items
    }

    fn plain(&mut self) -> Value {
        let mut word = String::new();
        while let Some(letter) = self.0.next_if(char::is_ascii_alphanumeric) {
            word.push(letter);
        }
        match &word[..] {
            "null" => Value::Null,
            "true" => Value::Bool(true),
            "false" => Value::Bool(false),
            _ => {
                assert!(word == "0" || !word.starts_with('0'), "{word:?} is no value");
                Value::Number(word.parse().unwrap_or_else(|_| panic!("{word:?} is no value")))
            }
        }
    }

    fn text(&mut self) -> String {
        self.needs('"');
        let mut text = String::new();
        loop {
            match self.0.next().expect("a text ends") {
                '"' => return text,
                '\\' => text.push(self.escaped()),
                letter => {
                    assert!(letter >= ' ', "a control character in a text");
                    text.push(letter);
                }
            }
        }
    }

    fn escaped(&mut self) -> char {
        match self.0.next() {
            Some(letter @ ('"' | '\\' | '/')) => letter,
            Some('n') => '\n',
            Some('r') => '\r',
            Some('t') => '\t',
            Some('u') => {
                let digits: String = self.0.by_ref().take(4).collect();
                let code = u32::from_str_radix(&digits, 16).unwrap_or_else(|_| panic!("\\u{digits}"));
                char::from_u32(code).expect("no surrogates are written")
            }
            other => panic!("{other:?} is escaped"),
        }
    }
}
