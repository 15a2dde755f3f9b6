//! `milestarling answer`: what docs/ANSWERS.md has of an answer.

use crate::call::Call;
use crate::help::wrapped;
use crate::input::{say, Failure};
use crate::number;
use milestarling::Answer;
use std::io::Write;

const DOCUMENT: &str = include_str!(concat!(env!("CARGO_MANIFEST_DIR"), "/../../docs/ANSWERS.md"));

/// What the document has of an answer.
pub struct Explanation {
    /// What happened.
    pub happened: String,
    /// Who can mend it.
    pub mended: String,
    /// What to ask the member.
    pub asked: String,
}

/// The row of an answer in the table for the help desk.
pub fn explained(answer: Answer) -> Option<Explanation> {
    let begins = format!("| {} |", answer.number());
    let cells: Vec<&str> = DOCUMENT.lines().find(|line| line.starts_with(&begins))?.split(" | ").collect();
    let &[_, happened, mended, asked] = &cells[..] else { return None };
    let [happened, mended, asked] = [happened, mended, asked.trim_end_matches('|')].map(without_links);
    Some(Explanation { happened, mended, asked })
}

/// A text in which a link is only its words.
fn without_links(text: &str) -> String {
    let mut shown = String::new();
    let mut rest = text.trim();
    while let Some((before, (words, behind))) = rest.split_once('[').and_then(|(before, link)| {
        let (words, target) = link.split_once("](")?;
        Some((before, (words, target.split_once(')')?.1)))
    }) {
        shown += before;
        shown += words;
        rest = behind;
    }
    shown + rest
}

/// `milestarling answer`.
pub fn command(call: &Call, output: &mut dyn Write) -> Result<(), Failure> {
    if call.operands.is_empty() {
        let lines = Answer::ALL.iter().map(|answer| format!("{}\t{answer}\n", answer.number()));
        return output.write_all(lines.collect::<String>().as_bytes()).map_err(Failure::write);
    }
    let mut refused = false;
    for (at, word) in call.operands.iter().enumerate() {
        let answer = number(word).map_err(Failure::Usage)?;
        match Answer::try_from(answer) {
            Ok(answer) => {
                let text = format!("{}{}", if at == 0 { "" } else { "\n" }, told(answer));
                output.write_all(text.as_bytes()).map_err(Failure::write)?;
            }
            Err(error) => {
                refused = true;
                output.flush().map_err(Failure::write)?;
                let last = Answer::ALL.last().map_or(0, |answer| answer.number());
                say(format_args!("{error}: they are 0 to {last}"));
            }
        }
    }
    if refused {
        return Err(Failure::Refused);
    }
    Ok(())
}

fn told(answer: Answer) -> String {
    let mut text = wrapped(&format!("Answer {}: {answer}.", answer.number()), "");
    let Some(Explanation { happened, mended, asked }) = explained(answer) else { return text };
    for (heading, said) in [("What happened", happened), ("Who can mend it", mended), ("What to ask the member", asked)]
    {
        if !said.is_empty() {
            text += &format!("\n{heading}:\n{}", wrapped(&said, "    "));
        }
    }
    text
}
