//! Memory images in Intel HEX: the cases of the program `images`, which a model has made, done by the package.

mod reference;
mod support;

use milestarling::raw::{self, ImportReply};
use milestarling::{Answer, Memory, TaintedBytes, Window};
use std::mem::{align_of, size_of};
use support::stored;

// As the header has it.
const _: () = assert!(size_of::<ImportReply>() == 16 && align_of::<ImportReply>() == 8);

/// One case: its text, origin and r, memory and taint bytes.
struct Case<'a> {
    text: &'a [u8],
    window: Window,
    memory: &'a [u8],
    taint: &'a [u8],
}

/// The next case of the input, and what is behind it. The last case is cut.
fn case(input: &[u8]) -> Option<(Case<'_>, &[u8])> {
    let (head, rest) = input.split_at(40);
    let number = |i: usize| u64::from_le_bytes(head[8 * i..8 * i + 8].try_into().unwrap());
    let [text, memory, taint] = [0, 1, 2].map(|i| number(i) as usize);
    if rest.len() < text + memory + taint {
        return None;
    }
    let (text, rest) = rest.split_at(text);
    let (memory, rest) = rest.split_at(memory);
    let (taint, rest) = rest.split_at(taint);
    Some((Case { text, window: Window { origin: number(3), readonly: number(4) }, memory, taint }, rest))
}

fn hex(bytes: &[u8]) -> String {
    bytes.iter().map(|byte| format!("{byte:02x}")).collect()
}

#[test]
fn images_are_imported_as_the_model_says() {
    let (input, expected) = (stored("images", "stdin"), String::from_utf8(stored("images", "stdout")).unwrap());
    let (mut rest, mut said, mut number) = (&input[..], String::new(), 0);
    while let Some((case, behind)) = case(rest) {
        let (mut bytes, mut taint) = (case.memory.to_vec(), case.taint.to_vec());
        let reply = raw::import(case.text, case.window.origin, case.window.readonly, &mut bytes, &mut taint);
        said += &format!("case\t{number}\nimport\t{}\t{}\n", reply.answer, reply.line);
        said += &format!("memory\t{}\ntaint\t{}\n", hex(&bytes), hex(&taint));

        let lent = TaintedBytes { bytes: case.memory.to_vec(), taint: case.taint.to_vec() };
        let mut memory = Memory::new(case.window, lent);
        let done = memory.import_hex(case.text);
        assert_eq!((memory.bytes(), memory.taint()), (&bytes[..], &taint[..]), "case {number}");
        let told = done.err().map(|error| (u64::from(error.answer()), error.line().unwrap_or(0)));
        assert_eq!(told, (reply.answer != 0).then_some((reply.answer, reply.line)), "case {number}");
        (rest, number) = (behind, number + 1);
    }
    said += &format!("case\t{number}\tcut short\n");
    assert_eq!(number, 10_542);
    assert!(said == expected, "the program and the package differ");
}

#[test]
fn an_error_says_what_is_wrong() {
    let mut memory = Memory::zeroed(Window::at(16), 4);
    let mut said = |text: &str| memory.import_hex(text.as_bytes()).unwrap_err().to_string();
    assert_eq!(
        said(""),
        "refused (13), line 1: the line isn't one of Intel HEX, stands after the end, or the end is missing"
    );
    assert_eq!(said(":00000001FE\n"), "refused (14), line 1: the checksum of the line is wrong");
    assert_eq!(said(":020000021000EC\n"), "refused (15), line 1: the type of the line isn't 00, 01 or 04");
    assert_eq!(
        said(":0100100000EF\n:0100140000EB\n:00000001FF\n"),
        "refused (7), line 2: a byte of the line isn't inside the memory window"
    );
    memory.window.readonly = 5;
    let error = memory.import_hex(b":00000001FF\n").unwrap_err();
    assert_eq!((error.answer(), error.line()), (Answer::BadWindow, None));
    assert_eq!(
        error.to_string(),
        "refused (1): the memory window, the number of its taint bytes or the program counter is wrong"
    );
}
