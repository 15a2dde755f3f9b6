//! ELF files that are listed: by sections and by segments, with labels and data, and damaged in every way.

mod calls;
mod documents;
mod files;

use calls::{call, made, stored, Ended};
use documents::Value;
use files::{elf, symbols, Section, DYNSYM, EXECUTABLE, FUNCTION, LOCAL, NOBITS, PROGBITS, SYMTAB};
use std::process::Command;

const LOAD: u32 = 0xf940_0420;
const STORE: u32 = 0xf900_0420;
const RETURN: u32 = 0xd65f_03c0;

/// Two executable sections among others, with symbols of each sort.
fn sections(kind: u32) -> Vec<Section> {
    let [table, names] = symbols(
        kind,
        6,
        &[
            (b"", 3, 2, 0x1000),
            (b"$x", LOCAL, 2, 0x1000),
            (b"main", FUNCTION, 2, 0x1000),
            (b"start", LOCAL, 2, 0x1000),
            (b"$d", LOCAL, 2, 0x1008),
            (b"table", 1, 2, 0x1008),
            (b"inside", 1, 2, 0x100b),
            (b"$x.5", LOCAL, 2, 0x1010),
            (b"other", FUNCTION, 2, 0x1012),
            (b"end", LOCAL, 2, 0x1014),
            (b"elsewhere", FUNCTION, 2, 0xfff),
            (b"value", 1, 1, 0x3000),
            (b"undefined", FUNCTION, 0, 0),
            (b"absolute", LOCAL, 0xfff1, 0x1004),
        ],
    );
    vec![
        Section { address: 0x3000, ..Section::plain(".rodata", PROGBITS, LOAD.to_le_bytes().repeat(2)) },
        Section::code(".text", 0x1000, &[LOAD, RETURN, LOAD, LOAD, STORE]),
        Section::code(".fini", 0x2000, &[STORE]),
        Section { flags: EXECUTABLE, ..Section::plain(".bss", NOBITS, Vec::new()) },
        table,
        names,
    ]
}

const LISTED: &str = "section .text:\n\
    0000000000001000 <main>:\n\
    0000000000001000 <start>:\n\
    1000\tf9400420\tldr x0, [x1, #8]\t0\n\
    1004\td65f03c0\t-\t2\n\
    0000000000001008 <table>:\n\
    1008\tdata\t-\t3\n\
    000000000000100b <inside>:\n\
    100b\tdata\t-\t5\n\
    0000000000001012 <other>:\n\
    1010\tf9000420\tstr x0, [x1, #8]\t0\n\
    section .fini:\n\
    2000\tf9000420\tstr x0, [x1, #8]\t0\n";

#[test]
fn lists_executable_sections_with_labels_and_data() {
    for kind in [SYMTAB, DYNSYM] {
        assert_eq!(call(&["list", "--sections"], &elf(false, &[], &sections(kind))), Ended::well(LISTED));
    }
    // Those of .symtab are taken where there are both, in whatever order.
    let [other, names] = symbols(DYNSYM, 8, &[(b"dynamic", FUNCTION, 2, 0x1000)]);
    let both: Vec<Section> = sections(SYMTAB).into_iter().chain([other, names]).collect();
    assert_eq!(call(&["list", "--sections"], &elf(false, &[], &both)), Ended::well(LISTED));

    // Without symbols all of a section is code.
    let plain = elf(false, &[], &sections(SYMTAB)[..3]);
    let listed = "section .text:\n1000\tf9400420\tldr x0, [x1, #8]\t0\n1004\td65f03c0\t-\t2\n\
                  1008\tf9400420\tldr x0, [x1, #8]\t0\n100c\tf9400420\tldr x0, [x1, #8]\t0\n\
                  1010\tf9000420\tstr x0, [x1, #8]\t0\nsection .fini:\n2000\tf9000420\tstr x0, [x1, #8]\t0\n";
    assert_eq!(call(&["list", "--sections"], &plain), Ended::well(listed));
    call(&["list", "--sections", "--at", "0"], &plain).fails(2, "addresses of its own");
}

/// In an object file symbols are counted from their sections, which all begin at 0.
#[test]
fn lists_object_files() {
    let [table, names] = symbols(SYMTAB, 4, &[(b"f", FUNCTION, 1, 0), (b"g", FUNCTION, 2, 4), (b"$d", LOCAL, 1, 4)]);
    let mut sections =
        [Section::code(".text.f", 0, &[LOAD, LOAD]), Section::code(".text.g", 0, &[RETURN, STORE]), table, names];
    sections[1].bytes.push(7);
    let listed = "section .text.f:\n0000000000000000 <f>:\n0\tf9400420\tldr x0, [x1, #8]\t0\n4\tdata\t-\t4\n\
                  section .text.g:\n0\td65f03c0\t-\t2\n0000000000000004 <g>:\n4\tf9000420\tstr x0, [x1, #8]\t0\n8\tshort\t-\t1\n";
    assert_eq!(call(&["list", "--sections"], &elf(true, &[], &sections)), Ended::well(listed));
}

/// The words of sections are what the lister makes of their bytes.
#[test]
fn words_are_as_listed() {
    let bytes = std::fs::read(stored("crates/list/stdin")).unwrap();
    let expected = std::fs::read_to_string(stored("crates/list/stdout")).unwrap();
    let section = Section { bytes, ..Section::code(".text", 0, &[]) };
    let path = made("words.elf", &elf(false, &[], &[section]));
    let ended = call(&["list", "--sections", path.to_str().unwrap()], b"");
    let lines = ended.wrote.lines().skip(1).map(|line| line.split_once('\t').unwrap().1);
    assert!(lines.eq(expected.lines()) && ended.status == Some(0));
}

#[test]
fn names_reach_no_terminal() {
    let name = b"a\n0\tf9400420\tldr x0\x1b[2J\xff\xe2\x80\xae";
    let [table, names] = symbols(SYMTAB, 3, &[(name, FUNCTION, 1, 0)]);
    let file = elf(true, &[], &[Section::code(".te\nxt", 0, &[LOAD]), table, names]);
    let listed = "section .te\\nxt:\n\
                  0000000000000000 <a\\n0\\tf9400420\\tldr x0\\u{1b}[2J\u{fffd}\\u{202e}>:\n0\tf9400420\tldr x0, [x1, #8]\t0\n";
    assert_eq!(call(&["list", "--sections"], &file), Ended::well(listed));
    let document = Value::read(&call(&["list", "--sections", "--json"], &file).wrote);
    let label = &document.get("files").items()[0].get("lines").items()[1];
    assert_eq!(label.get("label").text().as_bytes(), String::from_utf8_lossy(name).as_bytes());
}

#[test]
fn lists_executable_segments() {
    let load = LOAD.to_le_bytes();
    let store = [0x20, 0x04, 0x00, 0xf9, 1];
    let segments: [(u32, u32, u64, &[u8]); 4] =
        [(1, 4, 0, &load), (1, 5, 0x1000, &load), (6, 5, 0x2000, &load), (1, 1, 0x3000, &store)];
    let listed = "1000\tf9400420\tldr x0, [x1, #8]\t0\n3000\tf9000420\tstr x0, [x1, #8]\t0\n3004\tshort\t-\t1\n";
    for sections in [vec![], sections(SYMTAB)] {
        assert_eq!(call(&["list"], &elf(false, &segments, &sections)), Ended::well(listed));
    }
    // Without section headers there is nothing else to go by, which is said to whoever asks for sections.
    let file = elf(false, &segments, &[]);
    let ended = call(&["list", "--sections"], &file);
    assert_eq!((ended.wrote.as_str(), ended.status), (listed, Some(0)));
    assert!(ended.said.contains("standard input: it has no section headers"), "{ended:?}");

    // Cut anywhere it is said to be damaged; a file of fewer than four bytes is no ELF file yet.
    for cut in 4..file.len() {
        call(&["list"], &file[..cut]).fails(1, "a damaged ELF file");
    }
    for (place, byte, said) in [
        (54, 55, "55 bytes each"),
        (39, 0xff, "its table of program headers lies behind its end"),
        (64 + 56 + 15, 0xff, "an executable segment lies behind its end"),
        (64 + 56 + 39, 0xff, "an executable segment lies behind its end"),
    ] {
        let mut file = file.clone();
        file[place] = byte;
        call(&["list"], &file).fails(1, said);
    }
    call(&["list", "--sections"], &elf(false, &[(1, 4, 0, &load)], &[])).fails(1, "without an executable load segment");
    let hint = "; --sections goes by its sections";
    let ended = call(&["list"], &elf(true, &[], &sections(SYMTAB)));
    ended.fails(1, "FILE.o FILE.bin; --sections goes by its sections\n");
    for words in [&["list"][..], &["list", "--sections"]] {
        assert!(!call(words, &elf(false, &[], &[])).said.contains(hint));
    }
    // An image has neither, so that whoever asks for segments is told.
    let listed = Ended::well("f9400420\tldr x0, [x1, #8]\t0\n");
    assert_eq!((call(&["list"], &load), call(&["list", "--sections"], &load)), (listed.clone(), listed));
    call(&["check", "--segments"], &load).fails(2, "no ELF file, so that it has no segments");
}

#[test]
fn foreign_files() {
    let file = elf(false, &[], &sections(SYMTAB));
    for (place, byte, said) in
        [(4, 1, "a 32-bit one"), (5, 2, "a big-endian one"), (18, 62, "machine 62"), (19, 1, "machine 439")]
    {
        let mut file = file.clone();
        file[place] = byte;
        for words in [&["list"][..], &["list", "--sections"]] {
            let ended = call(words, &file);
            ended.fails(1, "not a 64-bit little-endian one for AArch64");
            assert!(ended.said.contains(said), "{ended:?}");
        }
    }
}

/// Where the header of a section stands.
fn header(file: &[u8], index: usize) -> usize {
    u64::from_le_bytes(file[40..48].try_into().unwrap()) as usize + 64 * index
}

#[test]
fn damaged_sections() {
    let file = elf(false, &[], &sections(SYMTAB));
    let with = |place: usize, number: u64, length: usize| {
        let mut file = file.clone();
        file[place..place + length].copy_from_slice(&number.to_le_bytes()[..length]);
        call(&["list", "--sections"], &file)
    };
    let [text, fini, table, names] = [2, 3, 5, 7].map(|index| header(&file, index));
    with(40, file.len() as u64 - 63, 8).fails(1, "its table of section headers lies behind its end");
    with(40, u64::MAX, 8).fails(1, "its table of section headers lies behind its end");
    with(58, 63, 2).fails(1, "its section headers have 63 bytes each");
    with(60, 9, 2).fails(1, "its table of section headers lies behind its end");
    with(62, 8, 2).fails(1, "names a section 8");
    with(text, 1 << 20, 4).fails(1, "a name lies behind its table");
    with(names + 32, 1, 8).fails(1, "a name lies behind its table");
    with(names + 32, 12, 8).fails(1, "a name has no end");
    with(text + 8, EXECUTABLE | 0x800, 8).fails(1, "a compressed executable section");
    for (place, number) in [(24, 1 << 40), (24, u64::MAX), (32, 1 << 40), (32, u64::MAX), (32, u64::MAX - 63)] {
        with(text + place, number, 8).fails(1, "an executable section lies behind its end");
        with(table + place, number, 8).fails(1, "its table of symbols lies behind its end");
    }
    with(fini + 24, u64::from_le_bytes(file[text + 24..text + 32].try_into().unwrap()) + 4, 8)
        .fails(1, "sections overlap");
    with(text + 16, u64::MAX - 18, 8).fails(1, "go beyond 64 bits");
    with(table + 56, 23, 8).fails(1, "its symbols have 23 bytes each");
    with(table + 40, 8, 4).fails(1, "names a section 8");
    with(table + 40, 0, 4).fails(1, "a name lies behind its table");
    let none = |segments| elf(false, segments, &sections(SYMTAB)[..1]);
    call(&["list", "--sections"], &none(&[])).fails(1, "without an executable section that has bytes\n");
    let empty = none(&[(1, 5, 0, &[])]);
    call(&["list", "--sections"], &empty).fails(1, "that has bytes; without --sections it goes by segments alone\n");
    call(&["check"], &empty).fails(2, "that has bytes; by --segments it goes by segments alone\n");
    for cut in 4..file.len() {
        let ended = call(&["list", "--sections"], &file[..cut]);
        ended.fails(1, "a damaged ELF file");
    }
}

/// A count of sections that the file's header has no room for stands in the first section header.
#[test]
fn very_many_sections() {
    let mut file = elf(false, &[], &sections(SYMTAB));
    let first = header(&file, 0);
    file[first + 32..first + 40].copy_from_slice(&8u64.to_le_bytes());
    file[first + 40..first + 44].copy_from_slice(&7u32.to_le_bytes());
    file[60..64].copy_from_slice(&[0, 0, 0xff, 0xff]);
    assert_eq!(call(&["list", "--sections"], &file), Ended::well(LISTED));
    for count in [1 << 20, 1 << 58, u64::MAX] {
        file[first + 32..first + 40].copy_from_slice(&count.to_le_bytes());
        call(&["list", "--sections"], &file).fails(1, "its table of section headers lies behind its end");
    }

    // A file that has them, all of the same bytes or of none.
    let count = 200_000u64;
    let mut table = file[header(&file, 2)..][..64].to_vec();
    for (length, said) in [(4u64, "sections overlap"), (0, "")] {
        table[32..40].copy_from_slice(&length.to_le_bytes());
        let mut large = file.clone();
        let place = large.len() as u64;
        large[40..48].copy_from_slice(&place.to_le_bytes());
        large[62..64].copy_from_slice(&[0, 0]);
        large.extend([0; 64]);
        large[place as usize + 32..][..8].copy_from_slice(&count.to_le_bytes());
        large.extend(table.repeat(count as usize - 1));
        match said {
            "" => assert_eq!(call(&["list", "--sections"], &large), Ended::well("")),
            said => call(&["list", "--sections"], &large).fails(1, said),
        }
    }
}

/// Every byte of the headers, of the symbols and of the names changed, one at a time: each file is listed or gets a sentence,
/// in little memory.
#[test]
fn any_byte_changed() {
    let load = LOAD.to_le_bytes();
    let file = elf(false, &[(1, 5, 0x1000, &load), (1, 4, 0x2000, &load)], &sections(SYMTAB));
    let mut paths = Vec::new();
    for place in 4..file.len() {
        for (at, byte) in [0, 0x80, 0xff, file[place] ^ 4].into_iter().enumerate() {
            let mut changed = file.clone();
            changed[place] = byte;
            paths.push(made(&format!("changed-{place}-{at}.elf"), &changed));
        }
    }
    let mut counts = [0; 2];
    for (name, batch) in ["list --each", "list --each --sections", "list --sections --json", "check"]
        .iter()
        .flat_map(|name| paths.chunks(1000).map(move |batch| (name, batch)))
    {
        let limited = format!("ulimit -v 262144; exec \"$@\" {}", &name[name.find(' ').unwrap_or(name.len())..]);
        let mut command = Command::new("sh");
        command.args(["-c", &limited, "sh", env!("CARGO_BIN_EXE_milestarling"), name.split(' ').next().unwrap()]);
        let output = command.args(batch).output().unwrap();
        let said = String::from_utf8(output.stderr).unwrap();
        assert!(matches!(output.status.code(), Some(0..=2)), "{name}: {:?}, {said}", output.status);
        assert!(said.lines().all(|line| line.starts_with("milestarling: ") && line.contains(".elf: ")), "{said}");
        assert!(output.stdout.len() < 2000 * batch.len());
        if name.ends_with("json") {
            let document = Value::read(&String::from_utf8(output.stdout).unwrap());
            assert_eq!(document.get("files").items().len(), batch.len());
        }
        counts[usize::from(output.status.code() == Some(0))] += 1;
    }
    println!("calls with and without a fault: {counts:?}, of {} files", paths.len());
    paths.iter().for_each(|path| std::fs::remove_file(path).unwrap());
}

#[test]
fn as_a_document() {
    let file = elf(false, &[], &sections(SYMTAB));
    let path = made("document.elf", &file);
    let image = made("document.bin", &[0x20, 0x04, 0x40, 0xf9, 0, 0, 0, 0x91, 1]);
    let [path, image] = [&path, &image].map(|path| path.to_str().unwrap());
    let ended = call(&["list", "--json", "--sections", path, "/no/such/file", image], b"");
    assert_eq!(ended.status, Some(1));
    assert!(ended.said.starts_with("milestarling: /no/such/file: "), "{ended:?}");
    let document = Value::read(&ended.wrote);
    let [listed, missing, short] = document.get("files").items() else { panic!("{document:?}") };
    assert!(missing.get("error").text().starts_with("/no/such/file: ") && !missing.has("lines"));
    let text = |name: &str, value: &str| (name.to_string(), Value::Text(value.into()));
    let number = |name: &str, value: u64| (name.to_string(), Value::Number(value));
    let lines = listed.get("lines").items();
    let data = Value::Object(vec![text("address", "0x1008"), number("data", 3)]);
    assert!(lines.len() == LISTED.lines().count() && lines[6] == data, "{lines:?}");
    assert_eq!(lines[1], Value::Object(vec![text("address", "0x1000"), text("label", "main")]));
    let expected = [
        vec![text("address", "0x0"), text("word", "f9400420"), text("text", "ldr x0, [x1, #8]"), number("answer", 0)],
        vec![text("address", "0x4"), text("word", "91000000"), ("text".into(), Value::Null), number("answer", 2)],
        vec![text("address", "0x8"), number("short", 1)],
    ];
    assert_eq!(short.get("lines").items(), expected.map(Value::Object));
    assert_eq!(
        call(&["list", "--json"], b"").wrote,
        "{\"files\": [\n{\"file\": \"standard input\", \"lines\": [\n]}\n]}\n"
    );
}
