//! The answer of a run or a turn in a few sentences, with its addresses and bytes.

use super::account::{Account, Turn};
use super::html::{address, capital, code, counted, escaped, range};
use crate::places::{shown_places, shown_word};
use milestarling::{touches_memory, Answer, Instruction, Link, Numbers, Place, Range, Refusal};

/// The word that a turn was refused for: what it is called, and its text or else its digits.
pub fn refused_called(account: &Account, at: usize) -> Option<(String, String)> {
    let turn = &account.turns[at];
    let word = turn.refused.as_ref()?.refusal.word()?;
    let step = turn.steps + 1;
    let called = if account.has_turns() { format!("turn {}, step {step}", at + 1) } else { format!("step {step}") };
    let text = match shown_word(word) {
        none if none == "-" => format!("{word:08x}"),
        text => text,
    };
    Some((called, text))
}

/// How a turn ended.
pub fn lead(account: &Account, at: usize) -> String {
    let turn = &account.turns[at];
    let plugin = account.tracks[turn.track].name.as_deref();
    let of = plugin.map_or_else(String::new, |name| format!(" of {}", escaped(name)));
    let begin = if account.has_turns() { format!("Turn {}{of}", at + 1) } else { "The run".into() };
    let done = counted(turn.steps as u64, "step");
    let Some(refused) = &turn.refused else { return format!("{begin} was done, in {done}.") };
    let Some((called, text)) = refused_called(account, at) else {
        return format!("{begin} wasn't begun, and nothing was changed.");
    };
    let pc = account.past(turn).pc(turn.first + turn.steps);
    let mut said = format!("{}{of}, {}, at {}, was refused.", capital(&called), code(&text), address(pc));
    said += &detail(account, turn, refused.refusal, &refused.trails);
    said += " Nothing was changed by it: no register, no byte of memory, no taint.";
    said += &match turn.steps {
        0 => " No step was done before it".into(),
        1 => " The step before it stands".into(),
        steps => format!(" The {steps} steps before it stand"),
    };
    said + &match turn.words - turn.steps - 1 {
        0 => ".".into(),
        1 => ", and the word behind it wasn't run.".into(),
        left => format!(", and the {left} words behind it weren't run."),
    }
}

/// What is particular about a refusal.
fn detail(account: &Account, turn: &Turn, refusal: Refusal, trails: &[Vec<Link>]) -> String {
    let Some(word) = refusal.word() else { return String::new() };
    let numbers = Instruction::new(word).map(Instruction::numbers).unwrap_or_default();
    match (refusal.answer(), refusal.address()) {
        (Answer::NotInSet, _) if touches_memory(word) => {
            " It touches memory: it is a load or store of a kind that isn't taken.".into()
        }
        (Answer::NotInSet, _) => " It doesn't touch memory: it is the host's to compute.".into(),
        (Answer::TaintedAddress, _) => blamed(trails),
        // SP is tested first, and as the base of what is tested else it is the address.
        (Answer::Misaligned, Some(sp)) if numbers.base == 31 => {
            format!(" The stack pointer was {}, which is no multiple of 16.", address(sp))
        }
        (Answer::Misaligned, Some(at)) => format!("{} Its address isn't aligned as it has to be.", tried(numbers, at)),
        (_, Some(at)) => format!("{} {}", tried(numbers, at), reach(account, turn, refusal.answer())),
        _ => String::new(),
    }
}

fn blamed(trails: &[Vec<Link>]) -> String {
    let mut starts: Vec<Place> = trails.iter().filter_map(|links| Some(links.last()?.place)).collect();
    starts.sort_unstable();
    starts.dedup();
    let ends: Vec<Place> = trails.iter().filter_map(|links| Some(links.first()?.place)).collect();
    let (ends, starts) = (code(&shown_places(&ends)), code(&shown_places(&starts)));
    if ends == starts {
        return format!(" It would have taken its address from {ends}, tainted at the start.");
    }
    format!(" It would have taken its address from {ends}, which came of {starts}, tainted at the start.")
}

/// What a word was about to do.
fn tried(numbers: Numbers, at: u64) -> String {
    let verb = if numbers.direction == Numbers::STORE { "store" } else { "load" };
    format!(" It was about to {verb} {} from {} on.", counted(numbers.bytes.into(), "byte"), address(at))
}

/// What memory there is for it.
fn reach(account: &Account, turn: &Turn, answer: Answer) -> String {
    let (window, length) = (account.start().window(), account.start().length());
    match (account.ranges, answer) {
        (Some([shared, ..]), Answer::ReadOnly) => {
            format!("Both plugins may load {}, and neither may store there.", range(shared))
        }
        (Some([shared, first, second]), Answer::NotAllowed) => {
            let own = if turn.track == 0 { first } else { second };
            format!("Its own range is {}, and both plugins may load {}.", range(own), range(shared))
        }
        (_, Answer::ReadOnly) => {
            format!("Read-only is {}.", range(Range::new(window.origin, window.readonly)))
        }
        _ => format!("Memory is {}.", range(Range::new(window.origin, length))),
    }
}
