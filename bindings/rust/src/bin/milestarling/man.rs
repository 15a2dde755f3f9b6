//! `milestarling man`: the table of commands as a manual page, in roff.

use crate::call::Call;
use crate::commands::{Command, Part, ABOUT, CLOSING, COMMANDS, COMMON, STATUSES, SUMMARY};
use crate::input::Failure;
use std::io::Write;

/// The most columns of a line.
const WIDTH: usize = 80;

/// `milestarling man`.
pub fn command(call: &Call, output: &mut dyn Write) -> Result<(), Failure> {
    if !call.operands.is_empty() {
        return Err(Failure::Usage("`man` takes no words".into()));
    }
    output.write_all(page().as_bytes()).map_err(Failure::write)
}

fn page() -> String {
    let mut page = format!(
        ".TH MILESTARLING 1 \"\" \"milestarling {}\" \"User Commands\"\n.SH NAME\nmilestarling \\- {}\n.SH SYNOPSIS\n",
        env!("CARGO_PKG_VERSION"),
        escaped(ABOUT)
    );
    let synopses: Vec<String> =
        COMMANDS.iter().map(|command| format!(".B milestarling\n{}\n", called(command))).collect();
    page += &synopses.join(".br\n");
    page += ".SH DESCRIPTION\n";
    page += &prose(SUMMARY);
    page += &paragraph(CLOSING);
    page += ".SH COMMANDS\n";
    COMMANDS.iter().for_each(|command| page += &described(command));
    page += ".SH OPTIONS\n";
    page += &terms(COMMON);
    page += ".SH EXIT STATUS\n";
    page + &terms(STATUSES)
}

/// How a command is called, its name in bold.
fn called(command: &Command) -> String {
    let synopsis = command.synopsis();
    let rest = synopsis.strip_prefix(command.name).unwrap_or(&synopsis);
    format!("\\fB{}\\fR{}", escaped(command.name), escaped(rest))
}

fn described(command: &Command) -> String {
    let mut text = format!(".SS {}\n", escaped(command.name));
    let mut parts: Vec<String> = Vec::new();
    for part in command.text {
        parts.push(match part {
            Part::Says(said) => paragraph(said),
            Part::Terms(rows) => format!(".RS 4\n{}.RE\n", terms(rows)),
        });
    }
    // The first paragraph stands directly below the heading, and the options behind it.
    let options: Vec<(String, &str)> = command.options.iter().map(|flag| (flag.synopsis(), flag.about)).collect();
    let rows: Vec<(&str, &str)> = options.iter().map(|(name, about)| (name.as_str(), *about)).collect();
    parts.insert(1, terms(&rows));
    parts.iter().for_each(|part| text += part);
    text.replacen(".PP\n", "", 1)
}

fn paragraph(text: &str) -> String {
    format!(".PP\n{}", prose(text))
}

fn terms(rows: &[(&str, &str)]) -> String {
    rows.iter().map(|(term, meaning)| format!(".TP\n\\fB{}\\fR\n{}", escaped(term), prose(meaning))).collect()
}

/// A text in lines whose backquotes are for bold letters. A sentence begins a line, as roff wants it.
fn prose(text: &str) -> String {
    let parts = text.split('`').enumerate();
    let shown: String = parts
        .map(|(at, part)| match at % 2 {
            0 => escaped(part),
            _ => format!("\\fB{}\\fR", escaped(part)),
        })
        .collect();
    let (mut lines, mut line) = (String::new(), String::new());
    for word in shown.split(' ') {
        if !line.is_empty() && (line.ends_with('.') || line.len() + 1 + word.len() > WIDTH) {
            lines += &format!("{line}\n");
            line.clear();
        } else if !line.is_empty() {
            line.push(' ');
        }
        // At a line's start a point would begin a request.
        if line.is_empty() && word.starts_with('.') {
            line += "\\&";
        }
        line += word;
    }
    format!("{lines}{line}\n")
}

/// A text in which no sign is roff's.
fn escaped(text: &str) -> String {
    let signs = [('\\', "\\e"), ('-', "\\-"), ('\'', "\\(aq"), ('~', "\\(ti"), ('^', "\\(ha")];
    signs.iter().fold(text.to_string(), |text, &(sign, escape)| text.replace(sign, escape))
}
