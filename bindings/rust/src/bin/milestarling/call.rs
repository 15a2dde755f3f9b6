//! What a command was called with, read by its row of the table.

use crate::commands::Command;
use crate::input::{Failure, Source};
use crate::nearest::meant;
use crate::number;

/// The operands and the options of a call.
pub struct Call<'a> {
    pub operands: Vec<&'a str>,
    /// Options by their names, with the values of those that have one.
    given: Vec<(&'static str, &'a str)>,
}

/// What a call asks for.
pub enum Asked<'a> {
    Help,
    Version,
    Work(Call<'a>),
}

impl<'a> Call<'a> {
    /// Reads the words behind a command's name.
    pub fn read(command: &'static Command, words: &[&'a str]) -> Result<Asked<'a>, Failure> {
        let mut call = Call { operands: Vec::new(), given: Vec::new() };
        let mut words = words.iter().copied();
        while let Some(word) = words.next() {
            match word {
                "--" => call.operands.extend(words.by_ref()),
                "-h" | "--help" => return Ok(Asked::Help),
                "-V" | "--version" => return Ok(Asked::Version),
                _ if is_option(word) => call.option(command, word, &mut words)?,
                _ => call.operands.push(word),
            }
        }
        Ok(Asked::Work(call))
    }

    /// Takes an option, and its value from behind a `=` or from the next word.
    fn option(
        &mut self,
        command: &'static Command,
        word: &'a str,
        words: &mut impl Iterator<Item = &'a str>,
    ) -> Result<(), Failure> {
        let (name, joined) = word.split_once('=').map_or((word, None), |(name, value)| (name, Some(value)));
        let Some(flag) = command.option(name) else {
            let names = command.options.iter().map(|flag| flag.name);
            let meant = meant(name, names).map_or_else(String::new, |near| format!("; did you mean `{near}`?"));
            // It may have been meant as a file beside another.
            let is_beside = command.takes_one_file() && (!self.operands.is_empty() || words.next().is_some());
            let file = if is_beside { " (as a file: one file at a time)" } else { "" };
            return Err(Failure::Usage(format!("`{name}` is no option of `{}`{meant}{file}", command.name)));
        };
        let value = match (flag.value, joined) {
            (None, None) => "",
            (None, Some(_)) => return Err(Failure::Usage(format!("{name} takes no value"))),
            (Some(_), Some(value)) => value,
            (Some(_), None) => words.next().ok_or_else(|| Failure::Usage(format!("{name} needs a value")))?,
        };
        if self.value(flag.name).is_some() {
            return Err(Failure::Usage(format!("{name} is given twice")));
        }
        self.given.push((flag.name, value));
        Ok(())
    }

    /// The value of an option that was given.
    pub fn value(&self, name: &str) -> Option<&'a str> {
        self.given.iter().find(|(given, _)| *given == name).map(|&(_, value)| value)
    }

    /// Whether an option was given.
    pub fn has(&self, name: &str) -> bool {
        self.value(name).is_some()
    }

    /// The number that is an option's value.
    pub fn number(&self, name: &str) -> Result<Option<u64>, Failure> {
        self.value(name).map(|value| number(value).map_err(Failure::Usage)).transpose()
    }

    /// The number that is the value of an option that has to be given.
    pub fn needed(&self, name: &str) -> Result<u64, Failure> {
        self.number(name)?.ok_or_else(|| Failure::Usage(format!("say {name}: --help tells more")))
    }

    /// The one file that was named, or standard input.
    pub fn source(&self) -> Result<Source, Failure> {
        Source::of(&self.operands)
    }
}

/// Whether a word is an option: `-` is standard input, and what begins like a negative number is none.
fn is_option(word: &str) -> bool {
    word.strip_prefix('-').is_some_and(|rest| rest.starts_with(|letter: char| !letter.is_ascii_digit()))
}
