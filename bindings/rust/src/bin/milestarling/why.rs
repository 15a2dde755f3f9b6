//! `milestarling why`: the past of a run, of a case or of a text that has no values.

use crate::call::Call;
use crate::case::{Case, Machine};
use crate::input::{Failure, Source};
use crate::json::Json;
use crate::places::{next_place, shown_places, shown_span, shown_word};
use crate::{number, run_json};
use milestarling::{Link, Past, Place, Refusal, Register, VectorRegister};
use std::io::Write;

/// The past of the run of a case, or the one that a text is of.
pub fn past(source: &mut Source) -> Result<Past, Failure> {
    let text = source.text()?;
    if Past::is_text(&text) {
        return text.parse().map_err(|error| source.wrong(error));
    }
    match Case::read(source, &text)? {
        Machine::Alone(mut session, mut memory, words) => Ok(Past::run(&mut session, &mut memory, &words).0),
        Machine::Pair(_) => Err(source.wrong("a case of two plugins: why a byte is tainted is told of a plugin alone")),
    }
}

/// The bytes that are meant by `x3`, `x3.2`, `sp`, `q5.0`, `v5` or an address.
fn places(text: &str) -> Result<Vec<Place>, Failure> {
    let (name, byte) = text.split_once('.').map_or((text, None), |(name, byte)| (name, Some(byte)));
    let vector = name.strip_prefix('v').map_or_else(|| name.to_string(), |number| format!("q{number}"));
    let all: Vec<Place> = if let Ok(register) = name.parse::<Register>() {
        Place::of_register(register).collect()
    } else if let Ok(register) = vector.parse::<VectorRegister>() {
        Place::of_vector(register).collect()
    } else {
        let address = number(text).map_err(|_| {
            Failure::Usage(format!(
                "`{text}` is no place: x0 to x30, sp, q0 to q31, a byte of one as x3.2, or an address"
            ))
        });
        return Ok(vec![Place::Memory(address?)]);
    };
    let last = all.len() - 1;
    let Some(byte) = byte else { return Ok(all) };
    let found = all.into_iter().enumerate().find(|(at, _)| at.to_string() == byte);
    let wrong = || Failure::Usage(format!("`{text}`: {name} has bytes 0 to {last}"));
    found.map(|(_, place)| vec![place]).ok_or_else(wrong)
}

/// `milestarling why`: explains a place after so many steps, or those that a refused word would have taken its address from.
pub fn command(call: &Call, output: &mut dyn Write) -> Result<(), Failure> {
    let (files, place) = call.operands.split_at(call.operands.len().min(1));
    let at = call.number("--at")?;
    let asked = match place {
        [] if at.is_some() => return Err(Failure::Usage("--at needs a place".into())),
        [] => None,
        [place] => Some(places(place)?),
        _ => return Err(Failure::Usage(format!("one place at a time, and not {}", place.join(" ")))),
    };
    let mut source = Source::of(files)?;
    let past = past(&mut source)?;
    let step = at.map_or(past.steps(), |at| usize::try_from(at).unwrap_or(usize::MAX));
    let explained = explained(&past, asked, step).map_err(|refusal| source.wrong(refusal))?;
    let Some(explained) = explained else {
        return Err(Failure::Usage("no word was refused for a tainted address: name a place".into()));
    };
    let text = match call.has("--json") {
        true => format!("{}\n", explained.json(&source)),
        false => explained.text(),
    };
    output.write_all(text.as_bytes()).map_err(Failure::write)
}

/// The bytes that were asked about, with the way of each that is tainted.
struct Explained {
    asked: Vec<Place>,
    /// The word that was refused for them and the address that it stands at, where that was asked.
    refused: Option<(u32, u64)>,
    steps: usize,
    trails: Vec<Vec<Link>>,
}

/// Explains the bytes that are asked about, or those that a word was refused for, and nothing where there is no such word.
fn explained(past: &Past, asked: Option<Vec<Place>>, step: usize) -> Result<Option<Explained>, Refusal> {
    let (asked, refused) = match asked {
        Some(asked) => (asked, None),
        None => {
            let blamed = past.blamed()?;
            let Some(word) = past.refused().filter(|_| !blamed.is_empty()) else { return Ok(None) };
            (blamed, Some((word, past.pc(past.steps()))))
        }
    };
    let trails: Result<Vec<Vec<Link>>, Refusal> = asked.iter().map(|&place| past.why(place, step)).collect();
    let trails = trails?.into_iter().filter(|links| !links.is_empty()).collect();
    Ok(Some(Explained { asked, refused, steps: past.steps(), trails }))
}

impl Explained {
    fn text(&self) -> String {
        let heading = self.refused.map_or_else(String::new, |(word, pc)| {
            let (number, text) = (self.steps + 1, shown_word(word));
            format!("step {number}, {text}, at {pc:#x}: refused for {}\n", shown_places(&self.asked))
        });
        match self.trails.is_empty() {
            true => format!("{heading}{}: not tainted\n", named(&self.asked)),
            false => format!("{heading}{}", told(&self.trails)),
        }
    }

    fn json(&self, source: &Source) -> Json {
        let refused = self.refused.map(|(word, pc)| {
            Json::Object(vec![
                ("step", Json::Number(self.steps as u64 + 1)),
                ("word", Json::word(word)),
                ("text", Json::text(shown_word(word))),
                ("at", Json::address(pc)),
            ])
        });
        let trails = self.trails.iter().map(|trail| Json::array(trail.iter().map(link_json)));
        Json::Object(vec![
            ("file", Json::text(source.name())),
            ("refused", Json::maybe(refused)),
            ("asked", run_json::places(&self.asked)),
            ("trails", Json::array(trails)),
        ])
    }
}

/// A byte, and the step that copied it there, or null where it was tainted at the start.
fn link_json(link: &Link) -> Json {
    let copied = link.copied.map(|copied| {
        Json::Object(vec![
            ("step", Json::Number(copied.step as u64 + 1)),
            ("word", Json::word(copied.word)),
            ("text", Json::text(shown_word(copied.word))),
            ("from", run_json::place(copied.from)),
        ])
    });
    Json::Object(vec![("place", run_json::place(link.place)), ("copied", Json::maybe(copied))])
}

/// The name of a whole register, or of one byte.
fn named(asked: &[Place]) -> String {
    match asked {
        [Place::Register(register, _), _, ..] => register.to_string(),
        [Place::Vector(register, _), _, ..] => register.to_string(),
        _ => shown_places(asked),
    }
}

/// All ways back, each from its byte to the start.
fn told(trails: &[Vec<Link>]) -> String {
    let told: Vec<String> = grouped(trails).iter().map(|group| told_once(group)).collect();
    told.join("\n")
}

/// Ways back, those of bytes beside each other that went the same way by the same steps together, to be told once.
pub fn grouped(trails: &[Vec<Link>]) -> Vec<Vec<&Vec<Link>>> {
    let mut groups: Vec<Vec<&Vec<Link>>> = Vec::new();
    for trail in trails {
        match groups.last_mut() {
            Some(group) if goes_on(group, trail) => group.push(trail),
            _ => groups.push(vec![trail]),
        }
    }
    groups
}

/// Whether a way goes beside those of a group: by the same steps, and at each of them from the byte behind, or from the same
/// one as copies of a sign do.
fn goes_on(group: &[&Vec<Link>], trail: &[Link]) -> bool {
    let [.., last] = group else { return false };
    let step_of = |link: &Link| link.copied.map(|copied| copied.step);
    let was_same = |at: usize| group.len() > 1 && group[0][at].place == last[at].place;
    let is_same = |at: usize| last[at].place == trail[at].place && (group.len() == 1 || was_same(at));
    let is_next = |at: usize| next_place(last[at].place) == trail[at].place && !was_same(at);
    last.len() == trail.len()
        && is_next(0)
        && (0..trail.len()).all(|at| step_of(&last[at]) == step_of(&trail[at]))
        && (1..trail.len()).all(|at| is_next(at) || is_same(at))
}

fn told_once(group: &[&Vec<Link>]) -> String {
    let (Some(first), Some(last)) = (group.first(), group.last()) else { return String::new() };
    let span = |at: usize| shown_span(first[at].place, last[at].place);
    let lines = first.iter().enumerate().map(|(at, link)| match link.copied {
        Some(copied) => {
            format!("{}: step {}, {}, from {}\n", span(at), copied.step + 1, shown_word(copied.word), span(at + 1))
        }
        None => format!("{}: tainted at the start\n", span(at)),
    });
    lines.collect()
}
