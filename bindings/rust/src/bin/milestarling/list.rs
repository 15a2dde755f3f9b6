//! `milestarling list`.

use crate::call::Call;
use crate::code::Asked;
use crate::elf::{self, shown, Part, Piece};
use crate::input::{Failure, Progress, Source};
use crate::json::{unread, Items, Json};
use milestarling::{Lister, LINE_MAX};
use std::io::{self, Write};

/// Bytes that are listed at once.
const BATCH: usize = 1 << 16;

/// Where lines go to.
enum Lines {
    /// They are written as they are, the ones of words with their addresses where these are known.
    Plain,
    /// They are items of an array.
    Json(Items),
}

/// A listing that goes on, with the address of its next line where lines have one.
struct Listing<'a> {
    lister: Lister,
    room: Vec<u8>,
    at: Option<u64>,
    lines: Lines,
    output: &'a mut dyn Write,
}

impl Listing<'_> {
    fn new(at: Option<u64>, lines: Lines, output: &mut dyn Write) -> Listing<'_> {
        // With three bytes held a batch makes at most one word more than it has itself.
        Listing { lister: Lister::new(), room: vec![0; (BATCH / 4 + 1) * LINE_MAX], at, lines, output }
    }

    /// Lists a fragment of at most a batch.
    fn push(&mut self, fragment: &[u8]) -> Result<(), Failure> {
        let length = self.lister.push(fragment, &mut self.room);
        self.write(length.expect("a batch's lines have room, and the lister isn't closed")).map_err(Failure::write)
    }

    /// Ends the words that were pushed. Others may follow them.
    fn close(&mut self) -> Result<(), Failure> {
        let length = self.lister.close(&mut self.room);
        self.lister = Lister::new();
        self.write(length.expect("the short line has room, and the lister isn't closed")).map_err(Failure::write)
    }

    fn write(&mut self, length: usize) -> io::Result<()> {
        let Listing { room, at, lines, output, .. } = self;
        for line in room[..length].split_inclusive(|&byte| byte == b'\n') {
            match (&mut *lines, &*at) {
                (Lines::Plain, None) => return output.write_all(&room[..length]),
                (Lines::Plain, Some(at)) => {
                    write!(output, "{at:x}\t")?;
                    output.write_all(line)?;
                }
                (Lines::Json(items), at) => items.add(item(*at, members_of(line)), *output)?,
            }
            *at = at.map(|at| at.wrapping_add(4));
        }
        Ok(())
    }

    /// A line beside those of words, or what it says as an item.
    fn beside(&mut self, at: u64, line: String, name: &'static str, value: Json) -> Result<(), Failure> {
        match &mut self.lines {
            Lines::Plain => writeln!(self.output, "{line}"),
            Lines::Json(items) => items.add(item(Some(at), vec![(name, value)]), self.output),
        }
        .map_err(Failure::write)
    }

    /// Lists executable bytes, and says how many have been.
    fn part(&mut self, part: &Part, mut listed: impl FnMut(usize)) -> Result<(), Failure> {
        let text = |name: &[u8]| Json::text(String::from_utf8_lossy(name));
        if let Some(section) = part.section {
            self.beside(part.address, format!("section {}:", shown(section)), "section", text(section))?;
        }
        for piece in part.pieces() {
            match piece {
                Piece::Label(at, name) => {
                    self.beside(at, format!("{at:016x} <{}>:", shown(name)), "label", text(name))?;
                }
                Piece::Data(at, bytes) => {
                    let length = bytes.len() as u64;
                    self.beside(at, format!("{at:x}\tdata\t-\t{length}"), "data", Json::Number(length))?;
                }
                Piece::Words(at, bytes) => {
                    self.at = Some(at);
                    for batch in bytes.chunks(BATCH) {
                        self.push(batch)?;
                        listed(batch.len());
                    }
                    self.close()?;
                }
            }
        }
        Ok(())
    }

    /// Lists those that have bytes.
    fn parts(&mut self, parts: &[Part], progress: &mut Progress) -> Result<(), Failure> {
        let mut listed = 0;
        parts.iter().filter(|part| !part.bytes.is_empty()).try_for_each(|part| {
            self.part(part, |bytes| {
                listed += bytes as u64;
                progress.at(listed);
            })
        })
    }
}

fn item(at: Option<u64>, members: Vec<(&'static str, Json)>) -> Json {
    let address = at.map(|at| ("address", Json::address(at)));
    Json::Object(address.into_iter().chain(members).collect())
}

/// What a word's line says, or a `short` one.
fn members_of(line: &[u8]) -> Vec<(&'static str, Json)> {
    let line = String::from_utf8_lossy(line);
    let mut fields = line.trim_end().split('\t');
    let [word, text, last] = [(); 3].map(|()| fields.next().unwrap_or_default());
    let last = last.parse().map_or(Json::Null, Json::Number);
    if word == "short" {
        return vec![("short", last)];
    }
    let text = (text != "-").then(|| Json::text(text));
    vec![("word", Json::text(word)), ("text", Json::maybe(text)), ("answer", last)]
}

/// `milestarling list`.
pub fn command(call: &Call, output: &mut dyn Write) -> Result<(), Failure> {
    let asked = Asked::of_list(call)?;
    if asked.json {
        return list_json(call, &asked, output);
    }
    Source::each(call, output, |source, output| list(source, &asked, output))
}

fn list(mut source: Source, asked: &Asked, output: &mut dyn Write) -> Result<(), Failure> {
    let mut batch = vec![0; BATCH];
    let mut progress = Progress::of(source.length());
    let begins = source.fill(&mut batch[..elf::MAGIC.len()])?;
    let mut listing = Listing::new(asked.at, Lines::Plain, output);
    if &batch[..begins] == elf::MAGIC {
        let file = source.rest(batch[..begins].to_vec())?;
        return listing.parts(&asked.parts(&source, &file)?, &mut progress);
    }
    let (mut length, mut listed) = (begins, 0);
    while length > 0 {
        listing.push(&batch[..length])?;
        // A line is put out as soon as its bytes have come.
        listing.output.flush().map_err(Failure::write)?;
        listed += length as u64;
        progress.at(listed);
        length = source.some(&mut batch)?;
    }
    listing.close()
}

/// Lists all files as one document. One that can't be read has a member `error` in place of its lines.
fn list_json(call: &Call, asked: &Asked, output: &mut dyn Write) -> Result<(), Failure> {
    let mut items = Items::default();
    write!(output, "{{\"files\": [").map_err(Failure::write)?;
    let all_read = asked.each(call, |name, parts| {
        let parts = match parts {
            Ok(parts) => parts,
            Err(said) => return items.add(unread(name, said), output).map_err(Failure::write),
        };
        items.add(format_args!("{{\"file\": {}, \"lines\": [", Json::text(name)), output).map_err(Failure::write)?;
        Listing::new(None, Lines::Json(Items::default()), output).parts(parts, &mut Progress::of(None))?;
        write!(output, "\n]}}").map_err(Failure::write)
    })?;
    writeln!(output, "\n]}}").map_err(Failure::write)?;
    match all_read {
        true => Ok(()),
        false => Err(Failure::Refused),
    }
}
