//! Memory as a strip: sixteen bytes a row, with those that were touched and those that are tainted at the end. Rows in which
//! nothing happens are folded, and of very many only the first are shown, so that a page stays small.

use super::account::{Account, Track};
use super::html::{address, counted, escaped, range};
use crate::places::shown_places;
use milestarling::{Answer, Instruction, Link, Place, Range};
use std::collections::BTreeMap;
use std::iter::once;

const ROW: u64 = 16;
/// The most rows that a part of memory shows, beside those that would be folded alone.
const ROWS_MAX: usize = 48;

/// What was done to a byte.
#[derive(Clone, Copy, Default)]
struct Touch {
    loaded: bool,
    /// By which plugin.
    stored: Option<usize>,
    refused: bool,
    /// Whether the way of a secret to a refused address leads over it.
    passed: bool,
}

/// A part of memory, by its offsets.
struct Part {
    title: String,
    first: u64,
    length: u64,
}

pub struct Strip<'a> {
    account: &'a Account,
    touched: BTreeMap<u64, Touch>,
}

/// What is to be said of a row as a whole.
#[derive(Clone, Copy, PartialEq, Eq)]
enum Kind {
    Untainted,
    Tainted,
    /// Touched, or tainted in part.
    Busy,
}

impl<'a> Strip<'a> {
    pub fn of(account: &'a Account) -> Strip<'a> {
        let mut strip = Strip { account, touched: BTreeMap::new() };
        for (at, track) in account.tracks.iter().enumerate() {
            strip.touch_steps(at, track);
        }
        for refused in account.turns.iter().filter_map(|turn| turn.refused.as_ref()) {
            let known = [Answer::OutOfWindow, Answer::ReadOnly, Answer::NotAllowed].contains(&refused.refusal.answer());
            let found = refused.refusal.word().filter(|_| known).and_then(|word| Instruction::new(word).ok());
            if let (Some(found), Some(from)) = (found, refused.refusal.address()) {
                strip.touch(from, found.numbers().bytes.into(), |touch| touch.refused = true);
            }
            for link in refused.trails.iter().flatten() {
                strip.pass(link);
            }
        }
        strip
    }

    fn touch_steps(&mut self, at: usize, track: &Track) {
        for step in (0..track.past.steps()).map(|step| track.step(step)) {
            let (from, bytes) = (step.access.address, step.access.bytes());
            match step.access.is_store() {
                // It has stored nothing.
                true if step.failed => {}
                true => self.touch(from, bytes, |touch| touch.stored = Some(at)),
                false => self.touch(from, bytes, |touch| touch.loaded = true),
            }
        }
    }

    /// Notes something of those of these bytes that are in memory.
    fn touch(&mut self, from: u64, bytes: u64, note: impl Fn(&mut Touch)) {
        let (origin, length) = (self.account.start().window().origin, self.account.start().length());
        let offsets = (0..bytes).map(|byte| from.wrapping_add(byte).wrapping_sub(origin));
        offsets.filter(|&offset| offset < length).for_each(|offset| note(self.touched.entry(offset).or_default()));
    }

    fn pass(&mut self, link: &Link) {
        if let Place::Memory(from) = link.place {
            self.touch(from, 1, |touch| touch.passed = true);
        }
    }

    fn address(&self, offset: u64) -> u64 {
        self.account.start().window().origin.wrapping_add(offset)
    }

    fn was_tainted(&self, offset: u64) -> bool {
        self.account.start().taint()[offset as usize] != 0
    }

    /// Whether a byte is tainted at the end: as at the start where nothing was stored to it.
    fn is_tainted(&self, offset: u64) -> bool {
        match self.touched.get(&offset).and_then(|touch| touch.stored) {
            Some(track) => {
                let track = &self.account.tracks[track];
                track.is_tainted(Place::Memory(self.address(offset)), track.past.steps())
            }
            None => self.was_tainted(offset),
        }
    }

    /// The strip in HTML.
    pub fn html(&self) -> String {
        if self.account.start().length() == 0 {
            return "<p>The case has no memory.</p>\n".into();
        }
        let parts = self.parts();
        parts.iter().map(|part| format!("<h3>{}</h3>\n{}", part.title, self.part(part))).collect()
    }

    /// Memory by who may do what with it.
    fn parts(&self) -> Vec<Part> {
        let length = self.account.start().length();
        let (mut parts, mut at) = (Vec::new(), 0);
        for (first, end, owner) in self.owned().unwrap_or_default() {
            if at < first {
                parts.push(self.part_of(at, first, None));
            }
            parts.push(self.part_of(first, end, Some(&owner)));
            at = end;
        }
        if at < length {
            parts.push(self.part_of(at, length, None));
        }
        parts
    }

    /// What is said of ranges, by their first offsets and ends, in their order; nothing where they don't fit into memory or
    /// beside each other.
    fn owned(&self) -> Option<Vec<(u64, u64, String)>> {
        let (window, length) = (self.account.start().window(), self.account.start().length());
        let own = |track: &Track| format!("of {} alone", escaped(track.name.as_deref().unwrap_or_default()));
        let said: Vec<(String, Range)> = match self.account.ranges {
            Some(ranges) => {
                let names = once("read by both plugins, stored to by neither".into());
                names.chain(self.account.tracks.iter().map(own)).zip(ranges).collect()
            }
            None => vec![("read-only".into(), Range::new(window.origin, window.readonly))],
        };
        let offsets = |(owner, range): (String, Range)| {
            let first = range.address.checked_sub(window.origin)?;
            let end = first.checked_add(range.length).filter(|&end| end <= length)?;
            Some((first, end, owner))
        };
        let owned: Option<Vec<_>> = said.into_iter().filter(|(_, range)| range.length > 0).map(offsets).collect();
        let mut owned = owned?;
        owned.sort_unstable();
        owned.windows(2).all(|pair| pair[0].1 <= pair[1].0).then_some(owned)
    }

    fn part_of(&self, first: u64, end: u64, owner: Option<&str>) -> Part {
        let place = range(Range::new(self.address(first), end - first));
        let owner = match (owner, self.account.has_turns()) {
            (Some(owner), _) => format!(", {owner}"),
            (None, true) => ", of neither plugin".into(),
            (None, false) => String::new(),
        };
        let title = format!("{place}<span class=\"of\">: {}{owner}</span>", counted(end - first, "byte"));
        Part { title, first, length: end - first }
    }

    fn kind(&self, first: u64, end: u64) -> Kind {
        if self.touched.range(first..end).next().is_some() {
            return Kind::Busy;
        }
        let taint = &self.account.start().taint()[first as usize..end as usize];
        match (taint.contains(&0), taint.iter().any(|&taint| taint != 0)) {
            (true, false) => Kind::Untainted,
            (false, true) => Kind::Tainted,
            _ => Kind::Busy,
        }
    }

    /// The rows of a part.
    fn part(&self, part: &Part) -> String {
        let rows = (part.length + ROW - 1) / ROW;
        let bounds = |row: u64| (part.first + ROW * row, part.first + part.length.min(ROW * (row + 1)));
        let kinds: Vec<Kind> = (0..rows).map(bounds).map(|(first, end)| self.kind(first, end)).collect();
        let shown = self.shown(&kinds, part.first);
        let (mut html, mut next) = (String::from("<ul class=\"strip\">\n"), 0);
        for row in shown.into_iter().chain(once(rows as usize)) {
            match row - next {
                0 => {}
                1 => html.push_str(&self.row(bounds(next as u64))),
                _ => html.push_str(&self.fold(bounds(next as u64).0, bounds(row as u64 - 1).1, &kinds[next..row])),
            }
            if row < rows as usize {
                html.push_str(&self.row(bounds(row as u64)));
            }
            next = row + 1;
        }
        html + "</ul>\n"
    }

    /// The rows that aren't folded, in their order: those that something happens in, and the first of each stretch. Where they
    /// are too many, those of a refused access or of the way of a secret go before others.
    fn shown(&self, kinds: &[Kind], first: u64) -> Vec<usize> {
        let begins = |row: usize| row == 0 || kinds[row] == Kind::Busy || kinds[row] != kinds[row - 1];
        let counts = |row: usize| {
            let from = first + ROW * row as u64;
            self.touched.range(from..from + ROW).any(|(_, touch)| touch.refused || touch.passed)
        };
        let mut shown: Vec<usize> = (0..kinds.len()).filter(|&row| begins(row)).collect();
        if shown.len() > ROWS_MAX {
            shown.sort_by_cached_key(|&row| (!counts(row), row));
            shown.truncate(ROWS_MAX);
            shown.sort_unstable();
        }
        shown
    }

    fn fold(&self, first: u64, end: u64, kinds: &[Kind]) -> String {
        let said = match kinds[0] {
            kind if kinds.iter().any(|&other| other != kind) || kind == Kind::Busy => {
                "some touched or tainted, left out here"
            }
            Kind::Tainted => "all tainted, none touched",
            _ => "neither touched nor tainted",
        };
        let place = range(Range::new(self.address(first), end - first));
        format!("<li class=\"fold\">{place}: {}, {said}</li>\n", counted(end - first, "byte"))
    }

    fn row(&self, (first, end): (u64, u64)) -> String {
        let tainted: Vec<bool> = (first..end).map(|offset| self.is_tainted(offset)).collect();
        let cells: Vec<String> =
            (first..end).zip(&tainted).map(|(offset, &tainted)| self.cell(offset, tainted)).collect();
        let groups = cells.chunks(8).map(|cells| format!("<span class=\"eight\">{}</span>", cells.concat()));
        let groups: String = groups.collect();
        let at = address(self.address(first));
        let note = escaped(&self.note(first, &tainted));
        format!(
            "<li><span class=\"at\">{at}</span><span class=\"cells\" aria-hidden=\"true\">{groups}</span>\
             <span class=\"note\">{note}</span></li>\n"
        )
    }

    /// A byte: L where it was loaded, S where it was stored, x where that was refused, and a star where it is tainted.
    fn cell(&self, offset: u64, tainted: bool) -> String {
        let touch = self.touched.get(&offset).copied().unwrap_or_default();
        let letters = match (touch.refused, touch.loaded, touch.stored.is_some()) {
            (true, ..) => "x",
            (_, true, true) => "LS",
            (_, true, false) => "L",
            (_, false, true) => "S",
            _ if tainted => "",
            _ => "·",
        };
        let classes: Vec<&str> =
            [(tainted, "t"), (touch.loaded || touch.stored.is_some(), "u"), (touch.refused, "x"), (touch.passed, "p")]
                .into_iter()
                .filter_map(|(holds, class)| holds.then_some(class))
                .collect();
        let star = if tainted { "*" } else { "" };
        match &classes[..] {
            [] => format!("<i>{letters}{star}</i>"),
            classes => format!("<i class=\"{}\">{letters}{star}</i>", classes.join(" ")),
        }
    }

    /// The same in words.
    fn note(&self, first: u64, tainted: &[bool]) -> String {
        let end = first + tainted.len() as u64;
        let is_tainted = |offset: u64| tainted[(offset - first) as usize];
        let touch = |offset: u64| self.touched.get(&offset).copied().unwrap_or_default();
        let said = |verb: &str, holds: &dyn Fn(u64) -> bool| {
            let places: Vec<Place> = (first..end)
                .filter(|&offset| holds(offset))
                .map(|offset| Place::Memory(self.address(offset)))
                .collect();
            match places.len() as u64 {
                0 => None,
                all if all == end - first && all > 1 => Some(format!("all {verb}")),
                _ => Some(format!("{} {verb}", shown_places(&places))),
            }
        };
        let all = [
            said("tainted", &is_tainted),
            said("no longer tainted", &|offset| self.was_tainted(offset) && !is_tainted(offset)),
            said("loaded", &|offset| touch(offset).loaded),
            said("stored", &|offset| touch(offset).stored.is_some()),
            said("refused", &|offset| touch(offset).refused),
        ];
        let all: Vec<String> = all.into_iter().flatten().collect();
        if all.is_empty() {
            return "neither touched nor tainted".into();
        }
        all.join("; ")
    }
}
