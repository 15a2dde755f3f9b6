//! `milestarling check`: what it finds, why, and its status.

mod calls;
mod documents;
mod files;
mod reference;
mod support;

use calls::{call, made, stored, Ended};
use documents::Value;
use files::{elf, symbols, Section, FUNCTION, LOCAL, SYMTAB};
use milestarling::{classify, touches_memory, Answer};
use std::collections::BTreeMap;
use std::fs;
use support::{any_word, Random};

/// The words' reasons, by a document of the command.
fn reasons(words: &[u32]) -> Vec<(u32, u64, String)> {
    let bytes: Vec<u8> = words.iter().flat_map(|word| word.to_le_bytes()).collect();
    let ended = call(&["check", "--json"], &bytes);
    assert!(ended.said.is_empty() && matches!(ended.status, Some(0 | 1)), "{ended:?}");
    let document = Value::read(&ended.wrote);
    let found = document.get("files").items()[0].get("not_taken").items().iter().map(|found| {
        let word = u32::from_str_radix(found.get("word").text(), 16).unwrap();
        (word, found.get("answer").number(), found.get("reason").text().to_string())
    });
    found.collect()
}

/// Of which kinds words are, held against the names that LLVM and GNU give them: tools/kinds.py.
#[test]
fn kinds_are_those_of_other_tools() {
    let stored = fs::read_to_string(stored("bindings/rust/tests/kinds.txt")).unwrap();
    let expected: Vec<(u32, u64, String)> = stored
        .lines()
        .map(|line| {
            let [word, kind, _] = line.split('\t').collect::<Vec<_>>()[..] else { panic!("{line}") };
            (u32::from_str_radix(word, 16).unwrap(), 2, kind.into())
        })
        .collect();
    assert!(expected.len() > 1900);
    let words: Vec<u32> = expected.iter().map(|&(word, ..)| word).collect();
    let found: Vec<(u32, u64, String)> =
        reasons(&words).into_iter().map(|(word, answer, reason)| (word, answer, kind_in(&reason).into())).collect();
    for (found, expected) in found.iter().zip(&expected) {
        assert_eq!(found, expected, "{:08x}", expected.0);
    }
    assert_eq!(found.len(), expected.len());
}

/// A reason without the names in brackets.
fn kind_in(reason: &str) -> &str {
    reason.split(" (").next().unwrap()
}

/// The bits from a high one to a low one.
fn field(word: u32, high: u32, low: u32) -> u32 {
    word >> low & ((1 << (high - low + 1)) - 1)
}

/// Whether a condition of docs/RULES.md holds of a word, by its tables there.
fn holds(condition: &str, word: u32) -> bool {
    let [rt, rn, rt2, rs] = [0, 5, 10, 16].map(|low| field(word, low + 4, low));
    let (vector, size, opc, load) =
        (field(word, 26, 26) == 1, field(word, 31, 30), field(word, 23, 22), field(word, 22, 22) == 1);
    let indexed = field(word, 29, 27) == 0b111
        && field(word, 25, 24) == 0
        && field(word, 21, 21) == 0
        && field(word, 10, 10) == 1;
    let ordered = field(word, 29, 27) == 0b011 && field(word, 25, 24) == 1;
    let sized = ordered || field(word, 29, 27) == 0b111;
    let register = field(word, 29, 27) == 0b111 && field(word, 25, 24) == 0 && field(word, 21, 21) == 1;
    let literal = field(word, 29, 27) == 0b011 && field(word, 25, 24) == 0;
    let (pair, mode) = (field(word, 29, 27) == 0b101, field(word, 24, 23));
    let exclusive = field(word, 29, 27) == 0b001;
    match condition {
        "undefinedSize" if vector => sized && size != 0 && opc >= 2,
        "undefinedSize" => sized && size >= 2 && opc == 3,
        "undefinedPrefetch" => (indexed || ordered) && !vector && size == 3 && opc == 2,
        "undefinedOption" => register && field(word, 14, 14) == 0,
        "undefinedLiteral" => literal && vector && size == 3,
        "undefinedPair" => pair && (size == 3 || !vector && size == 1 && !(load && mode != 0)),
        "undefinedUnused" => exclusive && opc != 0 && (rt2 != 31 || rs != 31),
        "undefinedSecond" => exclusive && opc == 0 && rt2 != 31,
        "unpredictableBase" => indexed && !vector && rn != 31 && rn == rt,
        "unpredictablePair" => {
            let over = mode & 1 == 1 && !vector && rn != 31 && (rn == rt || rn == rt2);
            pair && (over || load && rt == rt2)
        }
        "unpredictableStatus" => exclusive && opc == 0 && (rs == rt || rs == rn && rn != 31),
        _ => panic!("{condition} is no condition"),
    }
}

/// A word of the set that isn't taken is told by a condition that holds of it.
#[test]
fn conditions_hold() {
    let mut random = Random::new(35);
    let words: Vec<u32> = (0..100_000).map(|_| any_word(&mut random)).collect();
    let mut counts: BTreeMap<String, usize> = BTreeMap::new();
    for (word, answer, reason) in reasons(&words) {
        assert_eq!(answer, u64::from(classify(word).number()), "{word:08x}");
        if answer > 2 {
            let condition = reason.trim_end_matches(')').rsplit('(').next().unwrap();
            assert!(
                holds(condition, word)
                    && condition.starts_with(if answer == 3 { "undefined" } else { "unpredictable" }),
                "{word:08x}, {reason}"
            );
            *counts.entry(reason).or_default() += 1;
        }
    }
    println!("{counts:#?}");
    assert!(counts.len() == 11 && counts.values().all(|&count| count > 10), "{counts:?}");
}

/// What isn't reported is taken, or doesn't touch memory.
#[test]
fn all_others_are_taken() {
    let mut random = Random::new(36);
    let words: Vec<u32> =
        (0..100_000).map(|at| if at % 2 == 0 { random.word() } else { any_word(&mut random) }).collect();
    let found: Vec<u32> = reasons(&words).into_iter().map(|(word, ..)| word).collect();
    let expected = words.into_iter().filter(|&word| touches_memory(word) && classify(word) != Answer::Done);
    assert!(expected.eq(found));
}

const STORE: u32 = 0xf900_0420;
const ATOMIC: u32 = 0xf820_0041;
const EXCLUSIVE_PAIR: u32 = 0xc87f_0440;

fn plugin() -> Vec<u8> {
    let [table, names] =
        symbols(SYMTAB, 4, &[(b"lock", FUNCTION, 1, 0x1004), (b"alias", LOCAL, 1, 0x1004), (b"$d", LOCAL, 1, 0x1010)]);
    let text = Section::code(".text", 0x1000, &[EXCLUSIVE_PAIR, ATOMIC, STORE, ATOMIC, ATOMIC]);
    elf(
        false,
        &[(1, 5, 0x2000, &STORE.to_le_bytes())],
        &[text, Section::code(".fini", 0x3000, &[ATOMIC]), table, names],
    )
}

const FOUND: &str = "1000\tc87f0440\t-\t2\texclusive pair (ldxp, stxp)\t<.text>
1004\tf8200041\t-\t2\tatomic (ldadd, swp and others)\t<lock>
100c\tf8200041\t-\t2\tatomic (ldadd, swp and others)\t<lock+0x8>
3000\tf8200041\t-\t2\tatomic (ldadd, swp and others)\t<.fini>
";
const COUNTED: &str =
    "5 loads and stores, 4 not taken: 3 atomic (ldadd, swp and others); 1 exclusive pair (ldxp, stxp); \
                       4 bytes are data by symbols, and left out\n";

#[test]
fn tells_of_a_plugin() {
    let expected = format!("standard input:\n{FOUND}standard input: {COUNTED}");
    let file = plugin();
    let refused = Ended { status: Some(1), ..Ended::well(&expected) };
    assert_eq!(call(&["check"], &file), refused);
    assert_eq!(call(&["check", "-"], &file), refused);
    // Section headers can lie.
    assert_eq!(call(&["check", "--segments"], &file), Ended::well("standard input: 1 load or store, all taken\n"));
    call(&["check", "--at", "0"], &file).fails(2, "addresses of its own");
}

#[test]
fn tells_of_images() {
    let image = [0x20, 0x04, 0x40, 0xf9, 0, 0, 0, 0x91, 0x41, 0, 0x20, 0xf8, 1];
    for (words, address) in [(&["check"][..], "8"), (&["check", "--at", "0xfffffffffffffffc"], "4")] {
        let expected = format!(
            "standard input:\n{address}\tf8200041\t-\t2\tatomic (ldadd, swp and others)\n\
             standard input: 2 loads and stores, 1 not taken: 1 atomic (ldadd, swp and others)\n"
        );
        assert_eq!(call(words, &image), Ended { status: Some(1), ..Ended::well(&expected) });
    }
    assert_eq!(call(&["check"], b""), Ended::well("standard input: 0 loads and stores\n"));
    let names = ["compare", "compare_early", "look_up", "look_up_kind", "copy_by_kind", "copy_by_letter"];
    let stored: Vec<String> = names.iter().map(|name| stored(&format!("examples/plugin/{name}.bin"))).collect();
    let words: Vec<&str> = ["check"].into_iter().chain(stored.iter().map(String::as_str)).collect();
    let ended = call(&words, b"");
    assert!(ended.status == Some(0) && ended.wrote.lines().all(|line| line.ends_with("all taken")), "{ended:?}");
    assert!(ended.wrote.ends_with("\n6 files: 18 loads and stores, all taken\n"), "{ended:?}");
}

/// A file that can't be read is said, and those behind it are still checked; the status tells it apart from one that isn't
/// taken.
#[test]
fn files_that_cannot_be_read() {
    let path = made("checked.elf", &plugin());
    let damaged = made("damaged.elf", &plugin()[..200]);
    let [path, damaged] = [&path, &damaged].map(|path| path.to_str().unwrap());
    let ended = call(&["check", "/no/such/file", damaged, path], b"");
    let expected = format!("{path}:\n{FOUND}{path}: {COUNTED}1 file of 3: {COUNTED}");
    assert_eq!((ended.wrote.as_str(), ended.status), (expected.as_str(), Some(2)));
    assert!(
        ended.said.starts_with("milestarling: /no/such/file: ") && ended.said.contains("a damaged ELF file"),
        "{ended:?}"
    );
    call(&["check", "/no/such/file"], b"").fails(2, "/no/such/file: ");
    call(&["check", "--bogus"], b"").fails(2, "--bogus");
}

#[test]
fn as_a_document() {
    let path = made("checked.document.elf", &plugin());
    let path = path.to_str().unwrap();
    let ended = call(&["check", "--json", path, "/no/such/file"], b"");
    assert_eq!(ended.status, Some(2));
    let document = Value::read(&ended.wrote);
    let [file, missing] = document.get("files").items() else { panic!("{document:?}") };
    assert!(missing.get("error").text().starts_with("/no/such/file: ") && !missing.has("not_taken"));
    assert_eq!(file.get("file").text(), path);
    for counted in [&document, file] {
        let numbers = ["loads_and_stores", "taken", "data_bytes"].map(|name| counted.get(name).number());
        assert_eq!(numbers, [5, 1, 4]);
        let reasons: Vec<(&str, u64)> = counted
            .get("reasons")
            .items()
            .iter()
            .map(|found| (kind_in(found.get("reason").text()), found.get("count").number()))
            .collect();
        assert_eq!(reasons, [("atomic", 3), ("exclusive pair", 1)]);
    }
    let found = &file.get("not_taken").items()[2];
    let texts = ["section", "address", "word", "reason", "symbol"].map(|name| found.get(name).text());
    assert_eq!(texts, [".text", "0x100c", "f8200041", "atomic (ldadd, swp and others)", "lock"]);
    assert_eq!((found.get("answer").number(), found.get("offset").number()), (2, 8));
}
