//! What an ELF file's symbols say of its executable sections: labels, and by Arm's mapping symbols which bytes are data.

use crate::elf::{damaged, name_in, number, section_at, sections_of, Elf, Label, Part};
use std::collections::HashMap;
use std::ops::Range;

const SYMBOLS: u64 = 2;
const DYNAMIC_SYMBOLS: u64 = 11;
const ENTRY: u64 = 24;

/// The types of symbols that are labels: none, object, function, indirect function.
const LABELS: [u8; 4] = [0, 1, 2, 10];
const FUNCTION: u8 = 2;

/// What a mapping symbol says of the bytes from it on.
#[derive(Clone, Copy, PartialEq)]
enum Mapped {
    Code,
    Data,
}

/// Adds what the symbols say to the parts, which are of the sections with these indices: those of `.symtab`, or where that was
/// stripped those of `.dynsym`.
pub fn add<'a>(elf: &Elf<'a>, table: &'a [u8], indices: &[usize], parts: &mut [Part<'a>]) -> Result<(), String> {
    let found = |kind: u64| sections_of(table).find(|section| section.kind() == kind);
    let Some(section) = found(SYMBOLS).or_else(|| found(DYNAMIC_SYMBOLS)) else { return Ok(()) };
    if section.entry() != ENTRY {
        return Err(damaged(&format!("its symbols have {} bytes each, and not {ENTRY}", section.entry())));
    }
    let symbols = elf.content(section, "its table of symbols")?;
    let strings = elf.content(section_at(table, section.link())?, "the table of its symbols' names")?;
    let place_of: HashMap<u64, usize> =
        indices.iter().enumerate().map(|(place, &index)| (index as u64, place)).collect();
    let mut labels: Vec<Vec<(usize, u8, &[u8])>> = parts.iter().map(|_| Vec::new()).collect();
    let mut mapped: Vec<Vec<(usize, Mapped)>> = parts.iter().map(|_| Vec::new()).collect();
    for symbol in symbols.chunks_exact(ENTRY as usize) {
        let (name, kind, value) = (number(symbol, 0, 4), symbol[4] & 15, number(symbol, 8, 8));
        let Some(&place) = place_of.get(&number(symbol, 6, 2)) else { continue };
        let part = &parts[place];
        let start = if elf.is_relocatable() { 0 } else { part.address };
        let offset = value.checked_sub(start).and_then(|offset| usize::try_from(offset).ok());
        // Some stand at the end of a section, to say where it is.
        let Some(offset) = offset.filter(|&offset| offset < part.bytes.len()) else { continue };
        if name == 0 || !LABELS.contains(&kind) {
            continue;
        }
        let name = name_in(strings, name)?;
        match mapping(name) {
            Some(to) => mapped[place].push((offset, to)),
            None => labels[place].push((offset, rank(symbol[4]), name)),
        }
    }
    for (part, (labels, mapped)) in parts.iter_mut().zip(labels.into_iter().zip(mapped)) {
        part.labels = sorted(labels);
        part.data = data(mapped, part.bytes.len());
    }
    Ok(())
}

/// What a mapping symbol says: `$x` or `$d`, or one of these with a dot and anything behind it.
fn mapping(name: &[u8]) -> Option<Mapped> {
    match name {
        [b'$', b'x'] | [b'$', b'x', b'.', ..] => Some(Mapped::Code),
        [b'$', b'd'] | [b'$', b'd', b'.', ..] => Some(Mapped::Data),
        _ => None,
    }
}

/// Of several symbols at one place functions come first, and of those the ones that other files see.
fn rank(info: u8) -> u8 {
    u8::from(info & 15 != FUNCTION) * 2 + u8::from(info >> 4 == 0)
}

fn sorted(mut labels: Vec<(usize, u8, &[u8])>) -> Vec<Label<'_>> {
    labels.sort_unstable();
    labels.dedup_by_key(|label| (label.0, label.2));
    labels.into_iter().map(|(offset, _, name)| Label { offset, name }).collect()
}

/// The ranges of data. What stands before the first mapping symbol is code; of two at one place the later counts.
fn data(mut mapped: Vec<(usize, Mapped)>, length: usize) -> Vec<Range<usize>> {
    mapped.sort_by_key(|&(offset, _)| offset);
    let mut ranges: Vec<Range<usize>> = Vec::new();
    for (at, &(offset, to)) in mapped.iter().enumerate() {
        let end = mapped.get(at + 1).map_or(length, |next| next.0);
        match ranges.last_mut() {
            _ if to == Mapped::Code || offset == end => {}
            Some(last) if last.end == offset => last.end = end,
            _ => ranges.push(offset..end),
        }
    }
    ranges
}
