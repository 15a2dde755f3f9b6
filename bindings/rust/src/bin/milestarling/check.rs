//! `milestarling check`: which loads and stores of a plugin aren't taken, and why.

use crate::call::Call;
use crate::code::Asked;
use crate::elf::{shown, Part, Piece};
use crate::input::Failure;
use crate::json::{unread, Items, Json};
use crate::kinds::reason;
use milestarling::{listing, touches_memory};
use std::collections::BTreeMap;
use std::io::{self, Write};

/// What was found, of a file or of all.
#[derive(Default)]
struct Counts {
    /// How many words load or store.
    all: u64,
    /// How many of them aren't taken, by their reasons.
    reasons: BTreeMap<&'static str, u64>,
    /// How many bytes the files' own symbols say to be data.
    data: u64,
}

impl Counts {
    fn refused(&self) -> u64 {
        self.reasons.values().sum()
    }

    fn add(&mut self, other: Counts) {
        self.all += other.all;
        self.data += other.data;
        for (reason, count) in other.reasons {
            *self.reasons.entry(reason).or_default() += count;
        }
    }

    fn told(&self) -> String {
        let data = match self.data {
            0 => String::new(),
            1 => "; 1 byte is data by a symbol, and left out".into(),
            bytes => format!("; {bytes} bytes are data by symbols, and left out"),
        };
        let all = match self.all {
            1 => "1 load or store".into(),
            all => format!("{all} loads and stores"),
        };
        let reasons: Vec<String> = self.reasons.iter().map(|(reason, count)| format!("{count} {reason}")).collect();
        match self.refused() {
            0 if self.all == 0 => format!("{all}{data}"),
            0 => format!("{all}, all taken{data}"),
            refused => format!("{all}, {refused} not taken: {}{data}", reasons.join("; ")),
        }
    }

    /// The last members of an object that was begun, and its end.
    fn members(&self) -> String {
        let reasons = self
            .reasons
            .iter()
            .map(|(reason, &count)| Json::Object(vec![("reason", Json::text(reason)), ("count", Json::Number(count))]));
        let members = Json::Object(vec![
            ("loads_and_stores", Json::Number(self.all)),
            ("taken", Json::Number(self.all - self.refused())),
            ("reasons", Json::array(reasons)),
            ("data_bytes", Json::Number(self.data)),
        ]);
        members.to_string().split_off(1)
    }
}

/// A load or store that isn't taken.
struct Found {
    section: Option<String>,
    address: u64,
    word: u32,
    reason: &'static str,
    /// The symbol that stands before it, or the section, with how far it is from there.
    symbol: Option<(String, u64)>,
}

impl Found {
    /// The word's line of a listing, with its address before it and the reason and the symbol behind it.
    fn line(&self) -> String {
        let line = listing(&self.word.to_le_bytes());
        let symbol = self.symbol.as_ref().map_or_else(String::new, |(name, offset)| match offset {
            0 => format!("\t<{}>", shown(name.as_bytes())),
            offset => format!("\t<{}+{offset:#x}>", shown(name.as_bytes())),
        });
        format!("{:x}\t{}\t{}{symbol}", self.address, line.trim_end(), self.reason)
    }

    fn json(&self) -> Json {
        let line = listing(&self.word.to_le_bytes());
        let answer = line.trim_end().rsplit('\t').next().and_then(|answer| answer.parse().ok());
        let (name, offset) = self.symbol.as_ref().map_or((None, None), |(name, offset)| (Some(name), Some(*offset)));
        Json::Object(vec![
            ("section", Json::maybe(self.section.as_ref().map(Json::text))),
            ("address", Json::address(self.address)),
            ("word", Json::word(self.word)),
            ("answer", Json::maybe(answer.map(Json::Number))),
            ("reason", Json::text(self.reason)),
            ("symbol", Json::maybe(name.map(Json::text))),
            ("offset", Json::maybe(offset.map(Json::Number))),
        ])
    }
}

/// Goes through a part, counts, and hands on what isn't taken, with whether it is the first of its file.
fn go_through(
    part: &Part,
    counts: &mut Counts,
    mut found: impl FnMut(Found, bool) -> io::Result<()>,
) -> io::Result<()> {
    let text = |name: &[u8]| String::from_utf8_lossy(name).into_owned();
    let mut before = part.section.map(|name| (part.address, name));
    for piece in part.pieces() {
        let (start, bytes) = match piece {
            // Of several names at one place the first is taken.
            Piece::Label(at, _) if before.is_some_and(|(place, name)| place == at && part.section != Some(name)) => {
                continue
            }
            Piece::Label(at, name) => {
                before = Some((at, name));
                continue;
            }
            Piece::Data(_, bytes) => {
                counts.data += bytes.len() as u64;
                continue;
            }
            Piece::Words(start, bytes) => (start, bytes),
        };
        for (address, word, _) in milestarling::words(bytes, start) {
            counts.all += u64::from(touches_memory(word));
            let Some(reason) = reason(word) else { continue };
            let is_first = counts.reasons.is_empty();
            *counts.reasons.entry(reason).or_default() += 1;
            let symbol = before.map(|(at, name)| (text(name), address.wrapping_sub(at)));
            found(Found { section: part.section.map(text), address, word, reason, symbol }, is_first)?;
        }
    }
    Ok(())
}

/// Where what is found is written to.
struct Report<'a> {
    json: bool,
    files: Items,
    output: &'a mut dyn Write,
}

impl Report<'_> {
    fn begin(&mut self) -> io::Result<()> {
        match self.json {
            true => write!(self.output, "{{\"files\": ["),
            false => Ok(()),
        }
    }

    /// Goes through a file's parts.
    fn file(&mut self, name: &str, parts: &[Part]) -> io::Result<Counts> {
        let Report { json, files, output } = self;
        let mut counts = Counts::default();
        let mut found = Items::default();
        if *json {
            files.add(format_args!("{{\"file\": {}, \"not_taken\": [", Json::text(name)), *output)?;
        }
        for part in parts {
            go_through(part, &mut counts, |finding, is_first| match (*json, is_first) {
                (true, _) => found.add(finding.json(), *output),
                (false, true) => writeln!(output, "{name}:\n{}", finding.line()),
                (false, false) => writeln!(output, "{}", finding.line()),
            })?;
        }
        match *json {
            true => write!(output, "], {}", counts.members())?,
            false => writeln!(output, "{name}: {}", counts.told())?,
        }
        Ok(counts)
    }

    fn unread(&mut self, name: &str, said: &str) -> io::Result<()> {
        match self.json {
            true => self.files.add(unread(name, said), self.output),
            false => Ok(()),
        }
    }

    /// The sum of so many files, of those that were named.
    fn end(&mut self, total: &Counts, read: usize, named: usize) -> io::Result<()> {
        let files = |count: usize| if count == 1 { "1 file".into() } else { format!("{count} files") };
        match self.json {
            true => writeln!(self.output, "\n], {}", total.members()),
            false if named > read && read > 0 => writeln!(self.output, "{} of {named}: {}", files(read), total.told()),
            false if named > 1 && read > 0 => writeln!(self.output, "{}: {}", files(read), total.told()),
            false => Ok(()),
        }
    }
}

/// `milestarling check`. The files behind one that can't be read are checked too.
pub fn command(call: &Call, output: &mut dyn Write) -> Result<(), Failure> {
    let asked = Asked::of_check(call)?;
    let mut report = Report { json: asked.json, files: Items::default(), output };
    let (mut total, mut read) = (Counts::default(), 0);
    report.begin().map_err(Failure::write)?;
    let all_read = asked.each(call, |name, parts| {
        match parts {
            Ok(parts) => {
                total.add(report.file(name, parts).map_err(Failure::write)?);
                read += 1;
            }
            Err(said) => report.unread(name, said).map_err(Failure::write)?,
        }
        Ok(())
    })?;
    report.end(&total, read, call.operands.len()).map_err(Failure::write)?;
    match (all_read, total.refused()) {
        (false, _) => Err(Failure::Unread),
        (true, 0) => Ok(()),
        (true, _) => Err(Failure::Refused),
    }
}
