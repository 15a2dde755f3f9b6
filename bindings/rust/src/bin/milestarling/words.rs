//! `milestarling word` and `milestarling text`.

use crate::call::Call;
use crate::hexadecimal;
use crate::input::{printable, say, Failure, Source};
use crate::json::Json;
use crate::meant::said;
use milestarling::{classify, listing, touches_memory, Answer, Instruction};
use std::io::{self, IsTerminal, Write};

/// `milestarling word`.
pub fn word(call: &Call, output: &mut dyn Write) -> Result<(), Failure> {
    Telling::new(call, true, output).all(hexadecimal)
}

/// `milestarling text`.
pub fn text(call: &Call, output: &mut dyn Write) -> Result<(), Failure> {
    Telling::new(call, false, output).all(|line| {
        let read: Result<Instruction, _> = line.parse();
        read.map(Instruction::word).map_err(|refusal| said(line, refusal))
    })
}

/// The line of a word, which with answer 2 says also whether the word touches memory.
fn told(word: u32) -> String {
    let line = listing(&word.to_le_bytes());
    match (classify(word), touches_memory(word)) {
        (Answer::NotInSet, true) => format!("{}\ttouches memory\n", line.trim_end()),
        (Answer::NotInSet, false) => format!("{}\tdoesn't touch memory\n", line.trim_end()),
        _ => line,
    }
}

/// What is told of a word, for programs.
fn json(word: u32) -> Json {
    let text = Instruction::new(word).ok().map(Json::text);
    Json::Object(vec![
        ("word", Json::word(word)),
        ("text", Json::maybe(text)),
        ("answer", Json::Number(classify(word).into())),
        ("touches_memory", Json::Bool(touches_memory(word))),
    ])
}

/// Words that are told of, a line each or as one array.
struct Telling<'a> {
    call: &'a Call<'a>,
    /// Whether a line of standard input has several.
    split: bool,
    json: bool,
    count: usize,
    refused: bool,
    output: &'a mut dyn Write,
}

impl<'a> Telling<'a> {
    fn new(call: &'a Call, split: bool, output: &'a mut dyn Write) -> Telling<'a> {
        Telling { call, split, json: call.has("--json"), count: 0, refused: false, output }
    }

    /// Tells of the word that is found in each argument, or in each part of standard input where there is none.
    fn all(mut self, found: impl Fn(&str) -> Result<u32, String>) -> Result<(), Failure> {
        if self.call.operands.is_empty() {
            self.lines(&found)?;
        } else {
            self.each("", &self.call.operands, &found)?;
        }
        let end: &[u8] = match (self.json, self.count) {
            (false, _) => b"",
            (true, 0) => b"[]\n",
            (true, _) => b"]\n",
        };
        self.output.write_all(end).map_err(Failure::write)?;
        if self.refused {
            return Err(Failure::Refused);
        }
        Ok(())
    }

    fn lines(&mut self, found: &impl Fn(&str) -> Result<u32, String>) -> Result<(), Failure> {
        let (mut source, mut number) = (Source::of(&[])?, 0);
        while let Some(line) = source.line()? {
            number += 1;
            let parts: Vec<&str> = if self.split { line.split_whitespace().collect() } else { vec![&line] };
            self.each(&format!("line {number}: "), &parts, found)?;
            // Whoever types a line waits for what is told of it.
            if io::stdin().is_terminal() {
                self.output.flush().map_err(Failure::write)?;
            }
        }
        Ok(())
    }

    /// One that is refused is said, and those behind it are still told of.
    fn each(
        &mut self,
        place: &str,
        parts: &[&str],
        found: &impl Fn(&str) -> Result<u32, String>,
    ) -> Result<(), Failure> {
        for part in parts {
            match found(part) {
                Ok(word) => self.word(word)?,
                Err(said) => {
                    self.refused = true;
                    self.say(format!("{place}`{}`: {said}", printable(part)))?;
                }
            }
        }
        match question(parts) {
            Some(question) if self.split => self.say(format!("{place}{question}")),
            _ => Ok(()),
        }
    }

    fn word(&mut self, word: u32) -> Result<(), Failure> {
        let text = match (self.json, self.count) {
            (false, _) => told(word),
            (true, 0) => format!("[{}", json(word)),
            (true, _) => format!(",\n{}", json(word)),
        };
        self.count += 1;
        self.output.write_all(text.as_bytes()).map_err(Failure::write)
    }

    /// Says something behind what was told before it.
    fn say(&mut self, said: String) -> Result<(), Failure> {
        self.output.flush().map_err(Failure::write)?;
        say(said);
        Ok(())
    }
}

/// The words whose bytes words of two digits each may have been meant as, as a question.
fn question(given: &[&str]) -> Option<String> {
    let bytes: Vec<u8> = given.iter().filter_map(|digits| byte(digits)).collect();
    if bytes.is_empty() || bytes.len() != given.len() || bytes.len() % 4 != 0 {
        return None;
    }
    let words: Vec<String> = milestarling::words(&bytes, 0).map(|(_, word, _)| format!("{word:08x}")).collect();
    let what = if words.len() == 1 { "the four bytes of one word" } else { "the bytes of words, four each" };
    Some(format!("did you mean {what}? `milestarling word {}`", words.join(" ")))
}

fn byte(digits: &str) -> Option<u8> {
    let fits = digits.len() == 2 && digits.bytes().all(|digit| digit.is_ascii_hexdigit());
    fits.then(|| u8::from_str_radix(digits, 16).ok()).flatten()
}
