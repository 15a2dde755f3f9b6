//! ELF files that are made for tests, by the fields of the System V ABI.

// Each test takes the part that it needs.
#![allow(dead_code)]

pub const PROGBITS: u32 = 1;
pub const SYMTAB: u32 = 2;
pub const STRTAB: u32 = 3;
pub const NOBITS: u32 = 8;
pub const DYNSYM: u32 = 11;
pub const EXECUTABLE: u64 = 6;

pub const FUNCTION: u8 = 0x12;
pub const LOCAL: u8 = 0;

pub struct Section {
    pub name: &'static str,
    pub kind: u32,
    pub flags: u64,
    pub address: u64,
    pub bytes: Vec<u8>,
    pub link: u32,
    pub entry: u64,
}

impl Section {
    pub fn code(name: &'static str, address: u64, words: &[u32]) -> Section {
        let bytes = words.iter().flat_map(|word| word.to_le_bytes()).collect();
        Section { name, kind: PROGBITS, flags: EXECUTABLE, address, bytes, link: 0, entry: 0 }
    }

    pub fn plain(name: &'static str, kind: u32, bytes: Vec<u8>) -> Section {
        Section { name, kind, flags: 0, address: 0, bytes, link: 0, entry: 0 }
    }
}

/// A table of symbols, each with a name, its binding and type, the index of its section and its value; and their names, in the
/// section that stands behind it, whose index this is.
pub fn symbols(kind: u32, names: u32, symbols: &[(&[u8], u8, u16, u64)]) -> [Section; 2] {
    let (mut table, mut strings) = (vec![0; 24], vec![0]);
    for (name, info, section, value) in symbols {
        table.extend((strings.len() as u32).to_le_bytes());
        table.extend([*info, 0]);
        table.extend(section.to_le_bytes());
        table.extend(value.to_le_bytes());
        table.extend([0; 8]);
        strings.extend(*name);
        strings.push(0);
    }
    let table = Section { link: names, entry: 24, ..Section::plain(".symtab", kind, table) };
    [table, Section::plain(".strtab", STRTAB, strings)]
}

/// A file with segments of a type, flags, an address and bytes, and with sections, behind which stand their names: so their
/// indices are those of the list plus 1.
pub fn elf(relocatable: bool, segments: &[(u32, u32, u64, &[u8])], sections: &[Section]) -> Vec<u8> {
    let mut file = vec![0; 64 + 56 * segments.len()];
    file[..7].copy_from_slice(b"\x7fELF\x02\x01\x01");
    file[16] = if relocatable { 1 } else { 3 };
    file[18] = 183;
    file[32] = 64;
    file[54] = 56;
    file[56] = segments.len() as u8;
    for (at, (kind, flags, address, bytes)) in segments.iter().enumerate() {
        let (offset, length) = (file.len() as u64, bytes.len() as u64);
        let header = &mut file[64 + 56 * at..][..56];
        header[..4].copy_from_slice(&kind.to_le_bytes());
        header[4..8].copy_from_slice(&flags.to_le_bytes());
        for (number, place) in [offset, *address, *address, length, length, 4].iter().zip(header[8..].chunks_mut(8)) {
            place.copy_from_slice(&number.to_le_bytes());
        }
        file.extend(*bytes);
    }
    if !sections.is_empty() {
        add_sections(&mut file, sections);
    }
    file
}

fn add_sections(file: &mut Vec<u8>, sections: &[Section]) {
    let mut names = vec![0];
    let mut table = vec![0; 64];
    let mut header = |file: &mut Vec<u8>, section: &Section, bytes: &[u8], name: usize| {
        table.extend((name as u32).to_le_bytes());
        table.extend(section.kind.to_le_bytes());
        for number in [section.flags, section.address, file.len() as u64, bytes.len() as u64] {
            table.extend(number.to_le_bytes());
        }
        table.extend(section.link.to_le_bytes());
        table.extend([0; 4 + 8]);
        table.extend(section.entry.to_le_bytes());
        file.extend(bytes);
    };
    for section in sections {
        header(file, section, &section.bytes, names.len());
        names.extend(section.name.as_bytes());
        names.push(0);
    }
    let own = names.len();
    names.extend(b".shstrtab\0");
    header(file, &Section::plain("", STRTAB, Vec::new()), &names, own);
    let place = file.len() as u64;
    file.extend(table);
    file[40..48].copy_from_slice(&place.to_le_bytes());
    file[58] = 64;
    file[60] = sections.len() as u8 + 2;
    file[62] = sections.len() as u8 + 1;
}
