//! The steps as a table: text, code, address, and what each did. Of very many the first and the last are shown, and those on
//! the way of a secret.

use super::account::{Account, Turn};
use super::html::{address, code, counted, escaped};
use super::page::turn_called;
use crate::places::{shown_places, shown_word};
use milestarling::Step;
use std::collections::BTreeSet;

/// The most rows of which all are shown, and how many of more are: the first and the last.
const ROWS_MAX: usize = 200;
const FIRST: usize = 50;
const LAST: usize = 100;

const HEADINGS: [&str; 6] = ["Step", "Text", "Code", "Address", "What it did", "Word, and where it stands"];

/// A row: a step of a turn, or the word that ended it.
#[derive(Clone, Copy)]
struct Row {
    turn: usize,
    /// Counted in the turn; its number of steps for the refused word.
    step: usize,
}

/// The table, with the steps of each plugin that are shown whatever their number.
pub fn table(account: &Account, passed: &[BTreeSet<usize>]) -> String {
    let rows: Vec<Row> = account.turns.iter().enumerate().flat_map(|(at, turn)| rows_of(at, turn)).collect();
    if rows.is_empty() {
        return "<p>No step was done.</p>\n".into();
    }
    let is_shown = |at: usize, row: &Row| {
        let turn = &account.turns[row.turn];
        let counts = row.step < turn.steps && passed[turn.track].contains(&(turn.first + row.step));
        rows.len() <= ROWS_MAX || at < FIRST || at + LAST >= rows.len() || counts
    };
    let mut html = String::from("<table role=\"table\" class=\"steps\">\n<thead role=\"rowgroup\"><tr role=\"row\">");
    for heading in HEADINGS {
        html += &format!("<th role=\"columnheader\" scope=\"col\">{heading}</th>");
    }
    html += "</tr></thead>\n<tbody role=\"rowgroup\">\n";
    let (mut turn, mut left_out) = (None, 0);
    for (at, row) in rows.iter().enumerate() {
        if !is_shown(at, row) {
            left_out += 1;
            continue;
        }
        html += &fold(std::mem::take(&mut left_out));
        if account.has_turns() && turn != Some(row.turn) {
            turn = Some(row.turn);
            html += &spanning("turn", &turn_called(account, row.turn));
        }
        html += &row_of(account, *row);
    }
    html + "</tbody>\n</table>\n"
}

fn rows_of(at: usize, turn: &Turn) -> impl Iterator<Item = Row> {
    let refused = turn.refused.as_ref().is_some_and(|refused| refused.refusal.word().is_some());
    (0..turn.steps + usize::from(refused)).map(move |step| Row { turn: at, step })
}

fn spanning(class: &str, said: &str) -> String {
    let columns = HEADINGS.len();
    format!("<tr role=\"row\" class=\"{class}\"><th role=\"rowheader\" colspan=\"{columns}\">{said}</th></tr>\n")
}

fn fold(left_out: u64) -> String {
    match left_out {
        0 => String::new(),
        left => {
            spanning("fold", &format!("{} left out here: <code>milestarling run</code> has all", counted(left, "step")))
        }
    }
}

fn row_of(account: &Account, row: Row) -> String {
    let turn = &account.turns[row.turn];
    let track = &account.tracks[turn.track];
    let step = turn.first + row.step;
    let pc = track.past.pc(step);
    if row.step < turn.steps {
        let done = track.step(step);
        let mut did = did(done);
        let tainted = track.tainted_by(step);
        if !tainted.is_empty() {
            did += &format!("; taints {}", shown_places(&tainted));
        }
        let shown = [done.access.code.to_string(), address(done.access.address)];
        return cells("", row.step, track.past.words()[step], pc, shown, &escaped(&did));
    }
    let Some((refused, word)) = turn.refused.as_ref().and_then(|refused| Some((refused, refused.refusal.word()?)))
    else {
        return String::new();
    };
    let answer = refused.refusal.answer();
    let shown = ["–".into(), refused.refusal.address().map_or_else(|| "–".into(), address)];
    let did = format!("<strong>refused, answer {}</strong>: {}", answer.number(), escaped(&answer.to_string()));
    cells("refused", row.step, word, pc, shown, &did)
}

fn cells(class: &str, step: usize, word: u32, pc: u64, [number, place]: [String; 2], did: &str) -> String {
    let text = match shown_word(word) {
        none if none == "-" => "no text".into(),
        text => code(&text),
    };
    format!(
        "<tr role=\"row\" class=\"{class}\"><th role=\"rowheader\" scope=\"row\">{}</th><td role=\"cell\" class=\"text\">{text}</td>\
         <td role=\"cell\" class=\"code\">{number}</td><td role=\"cell\" class=\"address\">{place}</td>\
         <td role=\"cell\" class=\"did\">{did}</td><td role=\"cell\" class=\"word\">{} at {}</td></tr>\n",
        step + 1,
        code(&format!("{word:08x}")),
        address(pc)
    )
}

/// What a step did, in words.
fn did(step: Step) -> String {
    let bytes = counted(step.access.bytes(), "byte");
    match step.access {
        access if access.is_prefetch() => "prefetch: touches nothing".into(),
        access if !access.is_store() => format!("loads {bytes}"),
        _ if step.failed => format!("store-exclusive of {bytes} that failed: stores nothing"),
        _ => format!("stores {bytes}"),
    }
}
