//! The words and lines that are stored beside the programs, with what other tools say of them.
//!
//! Library and reference are both held against them, so that the reference has a witness of its own.

mod reference;
mod support;

use milestarling::{listing, Answer, Instruction};
use support::stored;

#[test]
fn listed_words() {
    let (input, output) = (stored("list", "stdin"), stored("list", "stdout"));
    let output = String::from_utf8(output).unwrap();
    assert!(output.lines().count() > 70_000);
    assert!(listing(&input) == output, "the library");
    assert!(reference::listing::listing(&input) == output, "the reference");
}

#[test]
fn assembled_lines() {
    let (input, output) = (stored("assemble", "stdin"), stored("assemble", "stdout"));
    // The last line may have no newline.
    let input = input.strip_suffix(b"\n").unwrap_or(&input);
    let mut expected = std::str::from_utf8(&output).unwrap().lines();
    let mut compared = 0;
    for line in input.split(|&byte| byte == b'\n') {
        let (word, answer) = expected.next().unwrap().split_once('\t').unwrap();
        let (word, answer) = (u32::from_str_radix(word, 16).unwrap(), answer.parse().unwrap());
        assert_eq!(reference::reading::read(line), (answer, word), "{:?}", String::from_utf8_lossy(line));
        let read = Instruction::from_line(line);
        assert_eq!(read.map_or(0, Instruction::word), word);
        assert_eq!(read.map_or_else(|refusal| refusal.answer(), |_| Answer::Done).number(), answer);
        compared += 1;
    }
    assert!(compared > 40_000 && expected.next().is_none(), "{compared} lines");
}
