//! Words to lines and back, held against the reference.

mod reference;
mod support;

use milestarling::{raw, Instruction, LINE_MAX};
use reference::{reading, writing, DONE, NOT_IN_SET, NO_ROOM, NO_SUCH_TEXT, UNDEFINED};
use support::{allocated_word, any_word, Random};

/// What a buffer holds that nothing was written to: bytes that differ from each other, and that no line has.
const FILLING: [u8; 64] = {
    let mut bytes = [0; 64];
    let mut at = 0;
    while at < 64 {
        bytes[at] = 0x80 + at as u8;
        at += 1;
    }
    bytes
};

/// Compares the line of a word in a buffer of this length, and returns the answer.
fn compare_line(word: u32, length: usize) -> u8 {
    let (mut ours, mut theirs) = (FILLING, FILLING);
    let reply = raw::text(word, &mut ours[..length]);
    let (answer, written) = writing::write(word, &mut theirs[..length]);
    assert_eq!(
        (reply.answer, reply.length, ours),
        (answer as u64, written as u64, theirs),
        "word {word:08x}, buffer of {length}"
    );
    answer
}

/// Compares the word of a text, and returns the answer.
fn compare_reading(text: &[u8]) -> u8 {
    let reply = raw::word(text);
    let (answer, word) = reading::read(text);
    assert_eq!((reply.answer, reply.word), (answer as u64, word as u64), "text {:?}", String::from_utf8_lossy(text));
    if answer == DONE {
        // The only text that is taken is the line itself.
        let mut line = FILLING;
        let reply = raw::text(word, &mut line);
        assert_eq!(&line[..reply.length as usize], text, "the line of {word:08x}");
    }
    answer
}

/// Compares a word's line and the way back.
fn compare_both_ways(word: u32) -> u8 {
    let (mut ours, mut theirs) = (FILLING, FILLING);
    let reply = raw::text(word, &mut ours);
    let (answer, written) = writing::write(word, &mut theirs);
    assert_eq!((reply.answer, reply.length, ours), (answer as u64, written as u64, theirs), "word {word:08x}");
    if answer == DONE {
        let back = raw::word(&ours[..written]);
        assert_eq!((back.answer, back.word), (0, word as u64), "word {word:08x} read back");
        assert_eq!(reading::read(&ours[..written]), (DONE, word), "the reference's own reader");
    }
    answer
}

#[test]
fn every_setting_of_the_upper_bits() {
    let mut random = Random::new(1);
    let mut counts = [0; 11];
    for upper in 0..1 << 22 {
        let word = upper << 10 | random.word() >> 22;
        counts[compare_both_ways(word) as usize] += 1;
    }
    println!("words by answer: {counts:?}");
    assert!(counts[DONE as usize] > 200_000 && counts[UNDEFINED as usize] > 10_000);
}

#[test]
fn random_words() {
    let mut random = Random::new(2);
    let mut counts = [0; 11];
    for _ in 0..500_000 {
        counts[compare_both_ways(any_word(&mut random)) as usize] += 1;
    }
    println!("words by answer: {counts:?}");
    assert!([DONE, NOT_IN_SET, UNDEFINED].iter().all(|&answer| counts[answer as usize] > 10_000));
}

#[test]
fn buffers_of_every_length() {
    let mut random = Random::new(3);
    let mut counts = [0; 11];
    for _ in 0..10_000 {
        let word = any_word(&mut random);
        for length in 0..40 {
            counts[compare_line(word, length) as usize] += 1;
        }
    }
    println!("lines by answer: {counts:?}");
    assert!(counts[NO_ROOM as usize] > 50_000 && counts[DONE as usize] > 50_000);
}

/// A word whose text is as long as any.
const LONGEST: u32 = 0xf8aa_5940;

#[test]
fn the_longest_text() {
    let most = Instruction::TEXT_MAX;
    assert_eq!(compare_line(LONGEST, most), DONE);
    assert_eq!(compare_line(LONGEST, most - 1), NO_ROOM);
    let mut random = Random::new(7);
    for _ in 0..500_000 {
        assert_eq!(compare_line(allocated_word(&mut random), most), DONE);
    }
}

#[test]
fn the_header_has_the_same_bounds() {
    let header = include_str!("../../../include/milestarling.h");
    for (name, most) in [("TEXT", Instruction::TEXT_MAX), ("LINE", LINE_MAX)] {
        assert!(header.contains(&format!("#define MILESTARLING_{name}_MAX {most}\n")), "{name}");
    }
}

/// All 2^32 words: some minutes. `cargo test --release -- --ignored`.
#[test]
#[ignore = "takes minutes"]
fn every_word() {
    let mut counts = [0u64; 11];
    for word in 0..=u32::MAX {
        counts[compare_both_ways(word) as usize] += 1;
    }
    println!("words by answer: {counts:?}");
}

const MNEMONICS: [&str; 42] = [
    "strb", "ldrb", "ldrsb", "strh", "ldrh", "ldrsh", "str", "ldr", "ldrsw", "prfm", "sturb", "ldurb", "ldursb",
    "sturh", "ldurh", "ldursh", "stur", "ldur", "ldursw", "prfum", "stlurb", "ldapurb", "ldapursb", "stlurh",
    "ldapurh", "ldapursh", "stlur", "ldapur", "ldapursw", "stp", "ldp", "ldpsw", "stnp", "ldnp",
    // Those that aren't ours.
    "ldnpsw", "stgp", "ldtr", "ldxr", "rprfm", "ld", "ldrq", "ld1",
];

#[rustfmt::skip]
const REGISTERS: [&str; 44] = [
    "x0", "x1", "x9", "x10", "x29", "x30", "x31", "w0", "w5", "w30", "w31", "xzr", "wzr", "sp", "wsp", "x01", "x-1",
    "x", "lr", "X2", "pldl1keep", "plil2strm", "pstl3keep", "pldl4keep", "plil1", "pldslckeep", "b0", "b31", "h7",
    "h30", "s0", "s31", "d1", "d31", "q0", "q9", "q31", "q32", "q01", "qzr", "v0", "v0.16b", "Q1", "d",
];

const NUMBERS: [&str; 40] = [
    "0",
    "-0",
    "00",
    "1",
    "-1",
    "01",
    "3",
    "4",
    "-4",
    "8",
    "16",
    "31",
    "32",
    "252",
    "255",
    "256",
    "-256",
    "-257",
    "257",
    "504",
    "512",
    "-512",
    "-520",
    "1008",
    "-1024",
    "4095",
    "4096",
    "16380",
    "16384",
    "32760",
    "32768",
    "65520",
    "65536",
    "1048572",
    "1048576",
    "-1048576",
    "-1048580",
    "+8",
    "18446744073709551616",
    "0x10",
];

const PIECES: [&str; 26] = [
    ", ", ",", " ", "  ", "[", "]", "!", "#", "-", "lsl", "uxtw", "sxtw", "sxtx", "uxtx", "lsl #0", "lsl #3", "lsl #4",
    " #2", " #4", "]!", "], #", "\n", "\t", "\0", "\r\n", "é",
];

/// Where the text has pieces of one kind: register, number, or neither.
fn pieces(text: &[u8]) -> Vec<(usize, usize)> {
    let is_part = |byte: u8| byte.is_ascii_alphanumeric() || byte == b'-';
    let mut found = Vec::new();
    let mut at = 0;
    while at < text.len() {
        let length = text[at..].iter().take_while(|&&byte| is_part(byte)).count();
        if length > 0 {
            found.push((at, at + length));
        }
        at += length + 1;
    }
    found
}

/// One small damage.
fn damage(random: &mut Random, text: &mut Vec<u8>) {
    let at = random.below(text.len() + 1);
    let inside = random.below(text.len().max(1));
    match random.below(14) {
        0 if !text.is_empty() => drop(text.remove(inside)),
        1 => text.insert(at, *random.choose(b" #,[]!-+0123456789abcdhqxwzrspltu.\n")),
        2 if !text.is_empty() => text[inside] = *random.choose(b" #,[]!-0123456789abcdhqxwzrsplt"),
        3 if text.len() > 1 => text.swap(inside.max(1), inside.max(1) - 1),
        4 => text.truncate(at),
        5 if !text.is_empty() => text[inside] = text[inside].to_ascii_uppercase(),
        6 if !text.is_empty() => text[inside] ^= 1 << random.below(8),
        7 => drop(text.splice(at..at, random.choose(&PIECES).bytes())),
        8 => {
            let other = line(random);
            let from = random.below(other.len());
            text.truncate(at);
            text.extend_from_slice(&other[from..]);
        }
        // A whole piece for another: the rest of the line stays good.
        _ => {
            let found = pieces(text);
            if found.is_empty() {
                return;
            }
            let which = random.below(found.len());
            let (from, to) = found[which];
            let is_number = text[from].is_ascii_digit() || text[from] == b'-';
            let new = match which {
                0 => *random.choose(&MNEMONICS),
                _ if is_number => *random.choose(&NUMBERS),
                _ if random.once_in(4) => *random.choose(&PIECES),
                _ => *random.choose(&REGISTERS),
            };
            drop(text.splice(from..to, new.bytes()));
        }
    }
}

fn line(random: &mut Random) -> Vec<u8> {
    let instruction = reference::decoding::decode(allocated_word(random)).unwrap();
    writing::line(&instruction).into_bytes()
}

#[test]
fn damaged_lines() {
    let mut random = Random::new(4);
    let (mut taken, mut refused) = (0, 0);
    for _ in 0..800_000 {
        let mut text = line(&mut random);
        damage(&mut random, &mut text);
        while random.once_in(3) {
            damage(&mut random, &mut text);
        }
        match compare_reading(&text) {
            NO_SUCH_TEXT => refused += 1,
            _ => taken += 1,
        }
    }
    println!("damaged lines: {taken} are another word's, {refused} none's");
    assert!(taken > 50_000 && refused > 300_000);
}

/// Each family's line with each number in the place of its offset.
#[test]
fn offsets_about_their_ends() {
    let shapes = [
        "ldr w1, #N",
        "ldr x1, #N",
        "ldrsw x1, #N",
        "prfm pldl1strm, #N",
        "stp w1, w2, [x3, #N]",
        "ldp x1, x2, [sp, #N]!",
        "ldpsw x1, x2, [x3], #N",
        "stnp x1, x2, [x3, #N]",
        "ldapurb w1, [x2, #N]",
        "stur x1, [x2, #N]",
        "ldrb w1, [x2], #N",
        "str x1, [x2, #N]!",
        "strb w1, [x2, #N]",
        "ldrh w1, [x2, #N]",
        "str w1, [x2, #N]",
        "ldr x1, [x2, #N]",
        "prfm pldl2strm, [x2, #N]",
        "prfum #7, [x2, #N]",
        "ldrb w1, [x2, x3, lsl #N]",
        "ldr x1, [x2, w3, sxtw #N]",
        "ldr s31, #N",
        "ldr d1, #N",
        "ldr q1, #N",
        "stp s1, s2, [x3, #N]",
        "ldp d1, d2, [sp, #N]!",
        "ldp q1, q2, [x3], #N",
        "stnp q1, q2, [x3, #N]",
        "stur q1, [x2, #N]",
        "ldr d1, [x2], #N",
        "str q1, [x2, #N]!",
        "str b1, [x2, #N]",
        "ldr h1, [x2, #N]",
        "str s1, [x2, #N]",
        "ldr d1, [x2, #N]",
        "ldr q1, [x2, #N]",
        "ldr b1, [x2, x3, lsl #N]",
        "ldr q1, [x2, w3, sxtw #N]",
    ];
    let mut taken = 0;
    for shape in shapes {
        let (head, tail) = shape.split_once('N').unwrap();
        for bits in 0..66 {
            for near in -9..=9 {
                for sign in [1, -1] {
                    let number = sign * ((1i128 << bits) + near);
                    let text = format!("{head}{number}{tail}");
                    taken += (compare_reading(text.as_bytes()) == DONE) as u32;
                }
            }
        }
        for number in NUMBERS {
            compare_reading(format!("{head}{number}{tail}").as_bytes());
        }
    }
    assert!(taken > 1000);
}

#[test]
fn noise() {
    let mut random = Random::new(5);
    for _ in 0..200_000 {
        let mut text = Vec::new();
        if random.once_in(2) {
            text.resize(random.below(40), 0);
            random.fill(&mut text);
        } else {
            text.extend(random.choose(&MNEMONICS).bytes());
            for _ in 0..random.below(10) {
                let piece = match random.below(3) {
                    0 => *random.choose(&REGISTERS),
                    1 => *random.choose(&NUMBERS),
                    _ => *random.choose(&PIECES),
                };
                text.extend(piece.bytes());
            }
        }
        compare_reading(&text);
    }
}

#[test]
fn long_texts() {
    let mut random = Random::new(6);
    for length in [29, 30, 31, 32, 34, 35, 36, 100, 106, 107, 255, 256, 257, 4096, 65_535, 65_536, 1 << 20] {
        for head in ["", "ldr x0, [x1, #", "ldr x0, #-", "ldr x", "prfm #", "prfm pldl1", "ldr x0, [x1, x2, lsl #", "stp x0, x1, "] {
            for filling in [b"0", b"1", b"9", b" ", b"["] {
                let mut text = head.as_bytes().to_vec();
                text.extend(filling.iter().cycle().take(length));
                compare_reading(&text);
                text.extend(b"]");
                compare_reading(&text);
            }
        }
        // A good line with a long tail.
        let mut text = line(&mut random);
        text.resize(length, b' ');
        compare_reading(&text);
    }
    compare_reading(b"");
}
