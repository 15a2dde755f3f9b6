//! Words to numbers and back, their names, numbers that are no word's, and which words touch memory.

mod reference;
mod support;

use milestarling::{
    classify, raw, touches_memory, Answer, Direction, ExclusiveOperation, Extend, Family, Instruction,
    LiteralOperation, Numbers, Operation, PairMode, PairOperation, SizedOperation,
};
use std::collections::BTreeSet;
use std::fmt::Debug;
use support::{any_word, Random};

/// A million words: numbers exactly where there is a text, and the word again from them.
#[test]
fn numbers_lead_back() {
    let mut random = Random::new(11);
    for _ in 0..1 << 20 {
        let word = any_word(&mut random);
        let reply = raw::decode(word);
        let class = classify(word);
        match Instruction::new(word) {
            Ok(instruction) => {
                assert_eq!(reply.answer, 0, "word {word:08x}");
                assert!(matches!(class, Answer::Done | Answer::Unpredictable), "word {word:08x}");
                assert_eq!(instruction.numbers(), reply.numbers);
                assert_eq!(reply.numbers.encode(), Ok(instruction));
            }
            Err(refusal) => {
                assert_eq!(reply.answer, u64::from(refusal.answer().number()), "word {word:08x}");
                assert_eq!(class, refusal.answer());
                assert_eq!(reply.numbers, Numbers::default());
            }
        }
    }
}

/// A million words: each number has a name, which leads back to it, and each name is some word's.
#[test]
fn names_lead_back() {
    let mut random = Random::new(13);
    let mut seen = BTreeSet::new();
    for _ in 0..1 << 20 {
        let Ok(instruction) = Instruction::new(any_word(&mut random)) else { continue };
        let numbers = instruction.numbers();
        let named = (instruction.family(), instruction.operation(), instruction.direction());
        assert_eq!(
            (named.0.number(), named.1.number(), named.2.number()),
            (numbers.family, numbers.operation, numbers.direction)
        );
        assert_eq!(instruction.mode().map_or(0, PairMode::number), numbers.mode, "{instruction}");
        assert_eq!(instruction.mode().is_some(), named.0 == Family::Pair, "{instruction}");
        assert_eq!(instruction.extend().map_or(0, Extend::number), numbers.option, "{instruction}");
        assert_eq!(instruction.extend().is_some(), named.0 == Family::Register, "{instruction}");
        let counted = match named.1 {
            Operation::Exclusive(_, bytes) => bytes,
            _ => numbers.bytes,
        };
        assert_eq!(counted, numbers.bytes, "{instruction}");
        seen.insert(named.1);
    }
    let all = LiteralOperation::ALL.len()
        + PairOperation::ALL.len()
        + SizedOperation::ALL.len()
        + 4 * ExclusiveOperation::ALL.len();
    assert_eq!(seen.len(), all);
    assert_eq!(Operation::of_number(Family::Exclusive, 32), None);
}

/// The names of an enum of the C header with their numbers, without what stands before each, and as Rust writes names.
fn named_in_c(name: &str, before: &str) -> Vec<(String, u32)> {
    let header = include_str!("../../../include/milestarling.h");
    let (_, rest) = header.split_once(&format!("enum milestarling_{name} {{\n")).expect("the enum");
    let (body, _) = rest.split_once("};").expect("its end");
    let lines = body.lines().filter_map(|line| line.trim().strip_prefix("MILESTARLING_")?.split_once(" = "));
    lines
        .map(|(name, number)| {
            let capital = |part: &str| format!("{}{}", &part[..1], part[1..].to_lowercase());
            let digits = |rest: &str| rest.chars().take_while(char::is_ascii_digit).collect::<String>().parse();
            (
                name.strip_prefix(before).unwrap_or(name).split('_').map(capital).collect(),
                digits(number).expect("a number"),
            )
        })
        .collect()
}

/// The names and numbers of an enum are those of the C header, whose names `tests/records.c` holds against texts.
#[test]
fn names_are_those_of_c() {
    fn same<T: Copy + Debug>(c: Vec<(String, u32)>, all: &[T], number: fn(T) -> u32) {
        assert_eq!(c, all.iter().map(|&name| (format!("{name:?}"), number(name))).collect::<Vec<_>>());
    }
    let families = named_in_c("family", "").into_iter().filter(|(_, number)| *number != 0).collect();
    same(families, Family::ALL, Family::number);
    same(named_in_c("direction", ""), Direction::ALL, Direction::number);
    same(named_in_c("pair_mode", "PAIR_"), PairMode::ALL, PairMode::number);
    same(named_in_c("literal_operation", "LITERAL_"), LiteralOperation::ALL, LiteralOperation::number);
    same(named_in_c("pair_operation", ""), PairOperation::ALL, PairOperation::number);
    same(named_in_c("sized_operation", ""), SizedOperation::ALL, SizedOperation::number);
    same(named_in_c("exclusive_operation", ""), ExclusiveOperation::ALL, ExclusiveOperation::number);
}

/// An extension of the index, by the text of `ldr x0, [x1, x2]` with each.
#[test]
fn extensions_have_their_texts() {
    for extend in Extend::ALL {
        let name = format!("{extend:?}").to_lowercase();
        let line = match extend {
            Extend::Uxtw | Extend::Sxtw => format!("ldr x0, [x1, w2, {name} #3]"),
            _ => format!("ldr x0, [x1, x2, {name} #3]"),
        };
        assert_eq!(line.parse::<Instruction>().map(Instruction::extend), Ok(Some(*extend)), "{line}");
    }
}

/// Each field of `stp x29, x30, [sp, #-16]!` with a number that makes it no word's.
#[test]
fn wrong_numbers() {
    let pair = Instruction::new(0xa9bf7bfd).unwrap().numbers();
    let wrong = [
        Numbers { family: 10, ..pair },
        Numbers { operation: 2, ..pair },
        Numbers { direction: Numbers::LOAD, ..pair },
        Numbers { bytes: 8, ..pair },
        Numbers { target: 32, ..pair },
        Numbers { second: 32, ..pair },
        Numbers { base: 32, ..pair },
        Numbers { index: 1, ..pair },
        Numbers { option: 3, ..pair },
        Numbers { scaled: 1, ..pair },
        Numbers { mode: 4, ..pair },
        Numbers { status: 31, ..pair },
        Numbers { offset: -15, ..pair },
        Numbers { offset: i64::MIN, ..pair },
        Numbers::default(),
    ];
    for numbers in wrong {
        assert_eq!(numbers.encode().unwrap_err().answer(), Answer::NoSuchInstruction, "{numbers:?}");
        assert_eq!(raw::encode(numbers), raw::WordReply { answer: 11, word: 0 });
    }
}

/// Of all values of the bits that say so, 31 to 5, each with some register in the bits below.
#[test]
fn words_that_touch_memory() {
    let (mut upper, mut count) = (0u32, 0u32);
    while upper < 1 << 27 {
        let word = upper << 5 | upper.wrapping_mul(2_654_435_761) >> 27;
        let touches = touches_memory(word);
        assert!(raw::touches_memory(word) == u64::from(touches), "word {word:08x}");
        count += u32::from(touches);
        upper += 1;
    }
    // A quarter of Arm's table, and three dc.
    assert_eq!(count, (1 << 25) + 3);
}

/// What is taken, undefined or unpredictable touches memory, so that a host may compute all else without a step.
#[test]
fn words_of_the_set_touch_memory() {
    let mut random = Random::new(12);
    for _ in 0..1 << 20 {
        let word = any_word(&mut random);
        assert!(touches_memory(word) || classify(word) == Answer::NotInSet, "word {word:08x}");
    }
}
