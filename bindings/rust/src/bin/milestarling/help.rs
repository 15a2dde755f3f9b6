//! The help: the table of commands as a text for a terminal.

use crate::call::Call;
use crate::commands::{self, Command, Part, ABOUT, CLOSING, COMMANDS, COMMON, STATUSES};
use crate::input::Failure;
use crate::nearest::meant;
use std::io::Write;

/// The most columns of a line.
const WIDTH: usize = 88;

/// The columns that a term has before what it means.
const TERM: usize = 21;

/// `milestarling help`.
pub fn command(call: &Call, output: &mut dyn Write) -> Result<(), Failure> {
    let text = match call.operands[..] {
        [] => whole(),
        [name] => of(commands::find(name).ok_or_else(|| unknown(name))?),
        _ => return Err(Failure::Usage(format!("one command at a time, and not {}", call.operands.join(" ")))),
    };
    output.write_all(text.as_bytes()).map_err(Failure::write)
}

/// What is said of a name that no command has.
pub fn unknown(name: &str) -> Failure {
    let names = COMMANDS.iter().map(|command| command.name);
    let said = match meant(name, names) {
        Some(near) => format!("`{name}` is no command; did you mean `{near}`?"),
        None => format!("`{name}` is no command: {}; --help tells more", commands::names()),
    };
    Failure::Usage(said)
}

/// What all commands do.
pub fn whole() -> String {
    let mut text = format!("milestarling: {ABOUT}\n\n");
    for command in COMMANDS {
        text += &described(command);
        text.push('\n');
    }
    text += "  milestarling -h | --help | -V | --version\n\n";
    text += &wrapped(CLOSING, "");
    text += "\nThe status is\n";
    text += &terms(STATUSES, "  ");
    text
}

/// What a command does.
pub fn of(command: &Command) -> String {
    let mut text = described(command);
    text.push('\n');
    text += &terms(COMMON, "      ");
    text
}

fn described(command: &Command) -> String {
    // A synopsis goes on behind the command's name.
    let indent = " ".repeat("  milestarling ".len() + command.name.len() + 1);
    let synopsis = format!("  milestarling {}", wrapped(&tied(command), &indent).trim_start());
    let mut parts = vec![synopsis];
    for (at, part) in command.text.iter().enumerate() {
        match part {
            Part::Says(said) if at == 0 => parts[0] += &wrapped(said, "      "),
            Part::Says(said) => parts.push(wrapped(said, "      ")),
            Part::Terms(rows) => parts.push(terms(rows, "        ")),
        }
    }
    let options: Vec<(String, &str)> = command.options.iter().map(|flag| (flag.synopsis(), flag.about)).collect();
    if !options.is_empty() {
        let rows: Vec<(&str, &str)> = options.iter().map(|(name, about)| (name.as_str(), *about)).collect();
        parts.insert(1, terms(&rows, "      "));
    }
    parts.join("\n")
}

/// A synopsis whose options aren't parted from their values.
fn tied(command: &Command) -> String {
    let parts = command.synopsis().replace(" [--", "\n[--").replace(" --", "\n--");
    parts.replace(' ', "\u{a0}").replace('\n', " ")
}

/// Terms and what they mean, side by side, or below each other where a term is long.
fn terms(rows: &[(&str, &str)], indent: &str) -> String {
    let behind = format!("{indent}{}", " ".repeat(TERM));
    let lines = rows.iter().map(|(term, meaning)| {
        let meaning = wrapped(meaning, &behind);
        if term.len() < TERM {
            format!("{indent}{term:TERM$}{}", meaning.trim_start())
        } else {
            format!("{indent}{term}\n{meaning}")
        }
    });
    lines.collect()
}

/// A paragraph in lines behind an indent. What stands in backquotes isn't parted where a line has room for it.
pub fn wrapped(text: &str, indent: &str) -> String {
    let (mut lines, mut line) = (String::new(), String::new());
    for word in words(text) {
        let length = line.chars().count() + 1 + word.chars().count();
        if !line.is_empty() && indent.len() + length > WIDTH {
            lines += &format!("{indent}{line}\n");
            line.clear();
        }
        if !line.is_empty() {
            line.push(' ');
        }
        line += word;
    }
    lines += &format!("{indent}{line}\n");
    lines.replace('\u{a0}', " ")
}

/// The words of a text, where what stands in backquotes is part of one.
fn words(text: &str) -> Vec<&str> {
    let (mut words, mut start, mut quoted) = (Vec::new(), 0, false);
    for (at, letter) in text.char_indices() {
        quoted ^= letter == '`';
        if letter == ' ' && !quoted {
            words.push(&text[start..at]);
            start = at + 1;
        }
    }
    words.push(&text[start..]);
    words.into_iter().filter(|word| !word.is_empty()).collect()
}
