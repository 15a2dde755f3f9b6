//! The command `milestarling`: the library for people at a terminal.

mod answers;
mod call;
mod case;
mod check;
mod code;
mod commands;
mod completion;
mod elf;
mod help;
mod import;
mod input;
mod json;
mod kinds;
mod list;
mod man;
mod meant;
mod nearest;
mod places;
mod report;
mod rescue;
mod run_json;
mod statements;
mod symbols;
mod tokens;
mod trace;
mod turns;
mod why;
mod words;

use call::{Asked, Call};
use input::{say, Failure};
use std::env;
use std::ffi::OsString;
use std::io::{self, BufWriter, Write};
use std::process::ExitCode;

fn main() -> ExitCode {
    let words: Vec<OsString> = env::args_os().skip(1).collect();
    let mut output = BufWriter::new(io::stdout().lock());
    let done = command(&words, &mut output);
    // What was written before a failure is put out before it is said.
    let done = done.and(output.flush().map_err(Failure::write));
    match done {
        Ok(()) => ExitCode::SUCCESS,
        Err(failure) => {
            if let Some(said) = failure.said() {
                say(said);
            }
            ExitCode::from(failure.status())
        }
    }
}

fn command(words: &[OsString], output: &mut dyn Write) -> Result<(), Failure> {
    let words: Vec<&str> = words
        .iter()
        .map(|word| word.to_str().ok_or_else(|| Failure::Usage(format!("{word:?} isn't UTF-8"))))
        .collect::<Result<_, _>>()?;
    let Some((&name, rest)) = words.split_first() else {
        return Err(Failure::Usage(format!("say what to do: {}; --help tells more", commands::names())));
    };
    let text = match name {
        "-h" | "--help" => help::whole(),
        "-V" | "--version" => version(),
        _ => {
            let command = commands::find(name).ok_or_else(|| help::unknown(name))?;
            match Call::read(command, rest)? {
                Asked::Work(call) => return (command.run)(&call, output),
                Asked::Help => help::whole(),
                Asked::Version => version(),
            }
        }
    };
    output.write_all(text.as_bytes()).map_err(Failure::write)
}

fn version() -> String {
    concat!("milestarling ", env!("CARGO_PKG_VERSION"), "\n").into()
}

/// A word of up to eight hexadecimal digits.
fn hexadecimal(word: &str) -> Result<u32, String> {
    let digits = word.strip_prefix("0x").unwrap_or(word);
    let fits = (1..=8).contains(&digits.len()) && digits.bytes().all(|digit| digit.is_ascii_hexdigit());
    let number = fits.then(|| u32::from_str_radix(digits, 16).ok()).flatten();
    number.ok_or_else(|| "a word has one to eight hexadecimal digits".into())
}

/// A number of 64 bits, in decimal or after 0x in hexadecimal.
fn number(word: &str) -> Result<u64, String> {
    let number = wide_number(word).ok().and_then(|number| u64::try_from(number).ok());
    number.ok_or_else(|| format!("`{word}` is no number of 64 bits"))
}

/// A number of 128 bits, likewise.
fn wide_number(word: &str) -> Result<u128, String> {
    let (digits, radix) = word.strip_prefix("0x").map_or((word, 10), |digits| (digits, 16));
    // A sign is no digit, though Rust takes one.
    let number = (!digits.starts_with(['+', '-'])).then(|| u128::from_str_radix(digits, radix).ok()).flatten();
    number.ok_or_else(|| format!("`{word}` is no number of 128 bits"))
}
