//! The page: one file, which loads nothing and runs nothing.

use super::account::{Account, Turn};
use super::html::{address, code, counted, escaped, paragraph};
use super::lead::{lead, refused_called};
use super::steps::table;
use super::strip::Strip;
use super::way::Way;
use crate::answers::{explained, Explanation};
use milestarling::Answer;
use std::collections::BTreeSet;

const STYLE: &str = include_str!("report.css");
/// The most ways that are drawn.
const WAYS_MAX: usize = 6;
/// The most turns that are told of for one answer.
const TURNS_MAX: usize = 12;

/// Nothing may be loaded or run, whatever stands in the page.
const POLICY: &str = "default-src 'none'; style-src 'unsafe-inline'; img-src data:";

const STEPS: &str =
    "<p>A code is the number of bytes touched, and 64 more for a store. The address is that of the first \
    byte. A byte is tainted where it is a secret or came of one.</p>\n";

const LEGEND: &str = "<p class=\"legend\">Each box is a byte. <span><i class=\"u\">L</i> loaded</span> \
    <span><i class=\"u\">S</i> stored</span> <span><i class=\"x\">x</i> refused</span> \
    <span><i class=\"t\">*</i> tainted at the end</span> <span><i class=\"t p\">*</i> on the way of the secret</span></p>\n";

const FOOTER: &str = "<footer>\n<p>This page has no value of a register or of memory. It is made of the words, of what each \
    step did, and of which bytes were tainted at the start: two runs that differ only in secrets have the same page, byte for \
    byte, and it may be sent to whoever may see a log.</p>\n";

/// The page of a case.
pub fn page(account: &Account) -> String {
    let ways = ways(account);
    let mut passed = vec![BTreeSet::new(); account.tracks.len()];
    for (track, way) in ways.iter().take(WAYS_MAX) {
        passed[*track].extend(way.steps());
    }
    let title = title(account);
    let mut html = format!(
        "<!DOCTYPE html>\n<html lang=\"en\">\n<head>\n<meta charset=\"utf-8\">\n\
         <meta name=\"viewport\" content=\"width=device-width, initial-scale=1\">\n\
         <meta name=\"color-scheme\" content=\"light dark\">\n\
         <meta http-equiv=\"Content-Security-Policy\" content=\"{POLICY}\">\n\
         <link rel=\"icon\" href=\"data:,\">\n<title>{title}</title>\n<style>\n{STYLE}</style>\n</head>\n<body>\n<main>\n"
    );
    html += &answers(account, &title);
    html += &ways_section(&ways);
    html += &format!("<section>\n<h2>Steps</h2>\n{STEPS}{}</section>\n", table(account, &passed));
    html += &format!("<section>\n<h2>Memory at the end</h2>\n{LEGEND}{}</section>\n", Strip::of(account).html());
    html + FOOTER
        + concat!("<p>Milestarling ", env!("CARGO_PKG_VERSION"), "</p>\n</footer>\n</main>\n</body>\n</html>\n")
}

fn answer_of(turn: &Turn) -> Answer {
    turn.refused.as_ref().map_or(Answer::Done, |refused| refused.refusal.answer())
}

fn title(account: &Account) -> String {
    if !account.has_turns() {
        return headline(answer_of(&account.turns[0])).into();
    }
    let stopped = account.turns.iter().filter(|turn| turn.refused.is_some()).count();
    match (stopped, account.turns.len()) {
        (0, all) => format!("Done: {}", counted(all as u64, "turn")),
        (stopped, all) => format!("Stopped: {stopped} of {}", counted(all as u64, "turn")),
    }
}

/// An answer as a heading.
fn headline(answer: Answer) -> &'static str {
    match answer {
        Answer::Done => "Done: every word was run",
        Answer::BadWindow => "Not begun: the host's call makes no sense",
        Answer::NotInSet => "Stopped: a word that this machine doesn't take",
        Answer::Undefined => "Stopped: a word that is undefined",
        Answer::Unpredictable => "Stopped: a word whose effect Arm leaves open",
        Answer::TaintedAddress => "Stopped: a secret would have chosen an address",
        Answer::Misaligned => "Stopped: the stack pointer or an address isn't aligned",
        Answer::OutOfWindow => "Stopped: there is no memory at the address",
        Answer::ReadOnly => "Stopped: a store to memory that is read-only",
        Answer::NotAllowed => "Stopped: memory that isn't this plugin's to reach",
        // No run and no turn ends with another.
        _ => "Stopped",
    }
}

/// What happened and what to do next: of a plugin alone its answer, and of turns each answer once.
fn answers(account: &Account, title: &str) -> String {
    let mut found: Vec<(Answer, Vec<usize>)> = Vec::new();
    for (at, turn) in account.turns.iter().enumerate() {
        let answer = answer_of(turn);
        match found.iter_mut().find(|(other, _)| *other == answer) {
            Some((_, turns)) => turns.push(at),
            None => found.push((answer, vec![at])),
        }
    }
    // What was done is told last.
    found.sort_by_key(|(answer, _)| *answer == Answer::Done);
    let mut html = format!("<header>\n<p class=\"kind\">Milestarling report</p>\n<h1>{title}</h1>\n");
    if let ([(answer, turns)], false) = (&found[..], account.has_turns()) {
        html += &format!(
            "{}</header>\n<section class=\"next\">\n<h2>What to do next</h2>\n",
            leads(account, *answer, turns)
        );
        return html + &next(account, *answer, turns) + "</section>\n";
    }
    html += "</header>\n";
    for (answer, turns) in &found {
        html +=
            &format!("<section class=\"next\">\n<h2>{}</h2>\n{}", headline(*answer), leads(account, *answer, turns));
        html += &next(account, *answer, turns);
        html += "</section>\n";
    }
    html
}

/// What became of the turns that ended with an answer.
fn leads(account: &Account, answer: Answer, turns: &[usize]) -> String {
    let badge = format!("<p class=\"answer a{0}\">Answer {0}</p>\n", answer.number());
    let told = turns.iter().take(TURNS_MAX).map(|&at| format!("<p class=\"lead\">{}</p>\n", lead(account, at)));
    let told: String = told.collect();
    let more = match turns.len().saturating_sub(TURNS_MAX) {
        0 => String::new(),
        more => format!("<p class=\"lead\">And {} with the same answer.</p>\n", counted(more as u64, "more turn")),
    };
    badge + &told + &more
}

fn next(account: &Account, answer: Answer, turns: &[usize]) -> String {
    if answer == Answer::Done {
        return "<p>Nobody has to do anything.</p>\n".into();
    }
    let Some(Explanation { happened, mended, asked }) = explained(answer) else { return String::new() };
    let mut html = String::from("<dl>\n");
    for (term, said) in
        [("Who can mend it", mended), ("What to ask the member", asked), ("What the answer means", happened)]
    {
        if !said.is_empty() {
            html += &format!("<dt>{term}</dt><dd>{}</dd>\n", paragraph(&said));
        }
    }
    html + &source(account, turns[0]) + "</dl>\n"
}

/// How the line of the source is found that a refused word was compiled from.
fn source(account: &Account, at: usize) -> String {
    if refused_called(account, at).is_none() {
        return String::new();
    }
    let turn = &account.turns[at];
    let pc = account.past(turn).pc(turn.first + turn.steps);
    format!(
        "<dt>Which line of the source it is</dt><dd>The word stands at {}. Subtract the address that the host had loaded the \
         plugin to, and ask {} of a file that was compiled with {}.</dd>\n",
        address(pc),
        code(&format!("addr2line -f -e PLUGIN {pc:#x}")),
        code("-g")
    )
}

/// The ways of all answers 5, each with the place of its plugin.
fn ways(account: &Account) -> Vec<(usize, Way)> {
    let mut ways = Vec::new();
    for (at, turn) in account.turns.iter().enumerate() {
        if let (Some(refused), Some(called)) = (&turn.refused, refused_called(account, at)) {
            let found = Way::all(account, turn.track, &refused.trails, &called);
            ways.extend(found.into_iter().map(|way| (turn.track, way)));
        }
    }
    ways
}

fn ways_section(ways: &[(usize, Way)]) -> String {
    if ways.is_empty() {
        return String::new();
    }
    let mut html = String::from("<section>\n<h2>How the secret came there</h2>\n");
    for (at, (_, way)) in ways.iter().take(WAYS_MAX).enumerate() {
        html += &way.html(at + 1);
    }
    match ways.len().saturating_sub(WAYS_MAX) {
        0 => {}
        more => html += &format!("<p>{} left out here.</p>\n", counted(more as u64, "more way")),
    }
    html + "</section>\n"
}

/// How a turn is called, with its plugin's name.
pub fn turn_called(account: &Account, at: usize) -> String {
    let name = account.tracks[account.turns[at].track].name.as_deref().unwrap_or_default();
    format!("Turn {}, {}", at + 1, escaped(name))
}
