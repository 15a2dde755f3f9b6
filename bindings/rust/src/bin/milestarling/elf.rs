//! The executable sections or load segments of an ELF file: 64-bit, little-endian, AArch64. Whatever the file says of places
//! and sizes is held against its length before it is used, so that a damaged one gets a sentence.

use crate::symbols;
use std::ops::Range;

/// How every ELF file begins.
pub const MAGIC: &[u8] = b"\x7fELF";

const LITTLE_ENDIAN_64: &[u8] = &[2, 1];
const AARCH64: u64 = 183;
const RELOCATABLE: u64 = 1;
const HEADER: u64 = 64;

const PROGRAM_HEADER: u64 = 56;
const LOAD: u64 = 1;
const SEGMENT_EXECUTABLE: u64 = 1;

const SECTION_HEADER: u64 = 64;
const NO_BITS: u64 = 8;
const SECTION_EXECUTABLE: u64 = 4;
const SECTION_COMPRESSED: u64 = 0x800;
/// In place of the names' section, which then stands in the first section header.
const NAMES_ELSEWHERE: u64 = 0xffff;
/// The longest name that is taken: compilers' are far shorter, and a damaged table may have one name everywhere.
const NAME_MAX: usize = 1 << 16;

/// Executable bytes of a file.
#[derive(Default)]
pub struct Part<'a> {
    /// The section's name, and none of a segment.
    pub section: Option<&'a [u8]>,
    pub address: u64,
    pub bytes: &'a [u8],
    /// In the order of their offsets.
    pub labels: Vec<Label<'a>>,
    /// The offsets of what the file says to be data, in order.
    pub data: Vec<Range<usize>>,
}

/// A symbol's name and its offset in a part.
pub struct Label<'a> {
    pub offset: usize,
    pub name: &'a [u8],
}

/// A piece of a part, with its address.
pub enum Piece<'a> {
    Label(u64, &'a [u8]),
    Words(u64, &'a [u8]),
    Data(u64, &'a [u8]),
}

impl<'a> Part<'a> {
    /// An image without headers.
    pub fn image(address: u64, bytes: &'a [u8]) -> Part<'a> {
        Part { address, bytes, ..Part::default() }
    }

    /// All of it in order. Words are cut by labels only between each other, and one inside a word stands before it.
    pub fn pieces(&self) -> Vec<Piece<'a>> {
        let mut pieces = Vec::new();
        let mut labels = &self.labels[..];
        let mut at = 0;
        for data in &self.data {
            labels = self.cut(at..data.start, false, labels, &mut pieces);
            labels = self.cut(data.clone(), true, labels, &mut pieces);
            at = data.end;
        }
        self.cut(at..self.bytes.len(), false, labels, &mut pieces);
        pieces
    }

    /// Adds the pieces of words or of data, and returns the labels behind them.
    fn cut<'l>(
        &self,
        range: Range<usize>,
        is_data: bool,
        labels: &'l [Label<'a>],
        pieces: &mut Vec<Piece<'a>>,
    ) -> &'l [Label<'a>] {
        let (inside, behind) = labels.split_at(labels.partition_point(|label| label.offset < range.end));
        let address = |offset: usize| self.address.wrapping_add(offset as u64);
        let add = |from: usize, to: usize, pieces: &mut Vec<Piece<'a>>| match &self.bytes[from..to] {
            [] => {}
            data if is_data => pieces.push(Piece::Data(address(from), data)),
            words => pieces.push(Piece::Words(address(from), words)),
        };
        let unit = if is_data { 1 } else { 4 };
        let mut at = range.start;
        for label in inside {
            let before = label.offset - (label.offset - range.start) % unit;
            add(at, before, pieces);
            pieces.push(Piece::Label(address(label.offset), label.name));
            at = before;
        }
        add(at, range.end, pieces);
        behind
    }
}

/// A name as it is shown: what isn't printable is escaped, so that a file's names make no lines and reach no terminal.
pub fn shown(name: &[u8]) -> String {
    String::from_utf8_lossy(name).escape_debug().to_string()
}

/// A number of so many bytes.
pub fn number(bytes: &[u8], at: usize, length: usize) -> u64 {
    bytes[at..at + length].iter().rev().fold(0, |number, &byte| number << 8 | u64::from(byte))
}

pub fn damaged(what: &str) -> String {
    format!("a damaged ELF file: {what}")
}

/// The name that begins there in a table of strings.
pub fn name_in(strings: &[u8], at: u64) -> Result<&[u8], String> {
    let from = usize::try_from(at).ok().and_then(|at| strings.get(at..));
    let from = from.ok_or_else(|| damaged("a name lies behind its table"))?;
    let end = from.iter().take(NAME_MAX + 1).position(|&byte| byte == 0);
    end.map(|end| &from[..end]).ok_or_else(|| damaged("a name has no end"))
}

/// A section's header.
#[derive(Clone, Copy)]
pub struct Section<'a>(&'a [u8]);

impl Section<'_> {
    fn name(self) -> u64 {
        number(self.0, 0, 4)
    }

    pub fn kind(self) -> u64 {
        number(self.0, 4, 4)
    }

    fn flags(self) -> u64 {
        number(self.0, 8, 8)
    }

    fn address(self) -> u64 {
        number(self.0, 16, 8)
    }

    fn size(self) -> u64 {
        number(self.0, 32, 8)
    }

    /// The index of a section that belongs to it.
    pub fn link(self) -> u64 {
        number(self.0, 40, 4)
    }

    /// How many bytes each entry of a table has.
    pub fn entry(self) -> u64 {
        number(self.0, 56, 8)
    }
}

/// A file whose header is that of one for AArch64.
pub struct Elf<'a> {
    file: &'a [u8],
    header: &'a [u8],
}

impl<'a> Elf<'a> {
    pub fn new(file: &'a [u8]) -> Result<Elf<'a>, String> {
        let header = part(file, 0, HEADER, "its header")?;
        let machine = number(header, 18, 2);
        let it_is = match (header[4], header[5]) {
            _ if &header[4..6] == LITTLE_ENDIAN_64 && machine == AARCH64 => return Ok(Elf { file, header }),
            (1, _) => "it is a 32-bit one".into(),
            (_, 2) => "it is a big-endian one".into(),
            _ => format!("its class is {}, its data encoding {}, its machine {machine}", header[4], header[5]),
        };
        Err(format!("an ELF file, but not a 64-bit little-endian one for AArch64: {it_is}"))
    }

    /// Whether symbols are counted from the start of their sections, as in an object file.
    pub fn is_relocatable(&self) -> bool {
        number(self.header, 16, 2) == RELOCATABLE
    }

    pub fn has_segments(&self) -> bool {
        number(self.header, 56, 2) != 0
    }

    pub fn has_sections(&self) -> bool {
        number(self.header, 40, 8) != 0
    }

    /// The executable load segments, in the order of the file's table.
    pub fn segments(&self) -> Result<Vec<Part<'a>>, String> {
        let [table, size, count] = [(32, 8), (54, 2), (56, 2)].map(|(at, length)| number(self.header, at, length));
        if count != 0 && size != PROGRAM_HEADER {
            return Err(damaged(&format!("its program headers have {size} bytes each, and not {PROGRAM_HEADER}")));
        }
        let mut found = Vec::new();
        let table = part(self.file, table, size * count, "its table of program headers")?;
        for entry in table.chunks_exact(PROGRAM_HEADER as usize) {
            if number(entry, 0, 4) == LOAD && number(entry, 4, 4) & SEGMENT_EXECUTABLE != 0 {
                let bytes = part(self.file, number(entry, 8, 8), number(entry, 32, 8), "an executable segment")?;
                found.push(Part::image(number(entry, 16, 8), bytes));
            }
        }
        if found.is_empty() {
            return Err("an ELF file without an executable load segment. Of an object file, make an image first: \
                        aarch64-linux-gnu-objcopy -O binary -j .text FILE.o FILE.bin"
                .into());
        }
        self.apart(found, "executable segments")
    }

    /// The executable sections, in the order of the file's table, with labels and data; none where it has no table.
    pub fn sections(&self) -> Result<Option<Vec<Part<'a>>>, String> {
        let table = self.section_table()?;
        if table.is_empty() {
            return Ok(None);
        }
        let names = self.section_names(table)?;
        let (mut found, mut indices) = (Vec::new(), Vec::new());
        for (index, section) in sections_of(table).enumerate() {
            if section.flags() & SECTION_EXECUTABLE == 0 || matches!(section.kind(), 0 | NO_BITS) {
                continue;
            }
            if section.flags() & SECTION_COMPRESSED != 0 {
                return Err("an ELF file with a compressed executable section".into());
            }
            let bytes = self.content(section, "an executable section")?;
            let section_name = names.map_or(Ok(&[][..]), |names| name_in(names, section.name()))?;
            found.push(Part { section: Some(section_name), ..Part::image(section.address(), bytes) });
            indices.push(index);
        }
        if found.is_empty() {
            return Err("an ELF file without an executable section that has bytes".into());
        }
        let mut found = self.apart(found, "executable sections")?;
        symbols::add(self, table, &indices, &mut found)?;
        Ok(Some(found))
    }

    fn section_table(&self) -> Result<&'a [u8], String> {
        let [table, size, count] = [(40, 8), (58, 2), (60, 2)].map(|(at, length)| number(self.header, at, length));
        if table == 0 {
            return Ok(&[]);
        }
        if size != SECTION_HEADER {
            return Err(damaged(&format!("its section headers have {size} bytes each, and not {SECTION_HEADER}")));
        }
        let what = "its table of section headers";
        // A count that has no room in the file's header stands in the first section header.
        let count = match count {
            0 => Section(part(self.file, table, SECTION_HEADER, what)?).size(),
            _ => count,
        };
        part(self.file, table, count.saturating_mul(SECTION_HEADER), what)
    }

    /// The strings that sections' names are in; none where sections have no names.
    fn section_names(&self, table: &'a [u8]) -> Result<Option<&'a [u8]>, String> {
        let index = match number(self.header, 62, 2) {
            0 => return Ok(None),
            NAMES_ELSEWHERE => section_at(table, 0)?.link(),
            index => index,
        };
        self.content(section_at(table, index)?, "the table of its sections' names").map(Some)
    }

    pub fn content(&self, section: Section<'a>, what: &str) -> Result<&'a [u8], String> {
        part(self.file, number(section.0, 24, 8), section.size(), what)
    }

    /// Parts that have no byte of the file in common, and no address behind the last one: so a listing of them is never longer
    /// than one of the file.
    fn apart(&self, parts: Vec<Part<'a>>, what: &str) -> Result<Vec<Part<'a>>, String> {
        let place = |bytes: &[u8]| bytes.as_ptr() as usize - self.file.as_ptr() as usize;
        let filled = parts.iter().filter(|part| !part.bytes.is_empty());
        let mut places: Vec<(usize, usize)> = filled.map(|part| (place(part.bytes), part.bytes.len())).collect();
        places.sort_unstable();
        if places.windows(2).any(|pair| pair[0].0 + pair[0].1 > pair[1].0) {
            return Err(damaged(&format!("its {what} overlap")));
        }
        if parts.iter().any(|part| part.address.checked_add(part.bytes.len() as u64).is_none()) {
            return Err(damaged(&format!("the addresses of its {what} go beyond 64 bits")));
        }
        Ok(parts)
    }
}

/// The part of a file from an offset on, or what is wrong.
fn part<'a>(file: &'a [u8], offset: u64, length: u64, what: &str) -> Result<&'a [u8], String> {
    let end = offset.checked_add(length).and_then(|end| usize::try_from(end).ok());
    let found = end.and_then(|end| file.get(offset as usize..end));
    found.ok_or_else(|| damaged(&format!("{what} lies behind its end")))
}

pub fn sections_of(table: &[u8]) -> impl Iterator<Item = Section<'_>> {
    table.chunks_exact(SECTION_HEADER as usize).map(Section)
}

pub fn section_at(table: &[u8], index: u64) -> Result<Section<'_>, String> {
    let found = usize::try_from(index).ok().and_then(|index| sections_of(table).nth(index));
    found.ok_or_else(|| damaged(&format!("it names a section {index}, which it hasn't got")))
}
