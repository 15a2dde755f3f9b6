//! What the command says of answers and of traces in numbers.

mod calls;

use calls::{call, stored, Ended};
use std::fs;

/// The rows of the table below a heading line, by their cells.
fn rows(document: &str, heading: &str) -> Vec<Vec<String>> {
    let table = document.lines().skip_while(|line| !line.starts_with(heading)).skip(2);
    let rows = table.take_while(|line| line.starts_with('|'));
    rows.map(|line| line.trim_matches('|').split(" | ").map(|cell| cell.trim().to_string()).collect()).collect()
}

#[test]
fn answers_are_those_of_the_document() {
    let document = fs::read_to_string(stored("docs/ANSWERS.md")).unwrap();
    let short = rows(&document, "| Answer | Text |");
    let lines: String = short.iter().map(|row| format!("{}\t{}\n", row[0], row[1])).collect();
    assert_eq!(call(&["answer"], b""), Ended::well(&lines));

    let words = |text: &str| text.split_whitespace().map(str::to_string).collect::<Vec<_>>();
    let long = rows(&document, "| Answer | What happened |");
    assert_eq!(long.len(), short.len());
    for (row, text) in long.iter().zip(&short) {
        let ended = call(&["answer", &row[0]], b"");
        assert!(ended.said.is_empty() && ended.status == Some(0), "{ended:?}");
        assert!(ended.wrote.lines().all(|line| line.chars().count() <= 90), "{}", ended.wrote);
        let said = words(&ended.wrote).join(" ");
        assert!(said.starts_with(&format!("Answer {}: {}.", row[0], text[1])), "{said}");
        for (heading, cell) in
            [("What happened", &row[1]), ("Who can mend it", &row[2]), ("What to ask the member", &row[3])]
        {
            // The document has links, and a terminal has none.
            let cell = cell.replace("[a worked answer 5](#a-worked-answer-5)", "a worked answer 5");
            let told = format!("{heading}: {}", words(&cell).join(" "));
            assert_eq!(said.contains(&told), !cell.is_empty(), "{told}: {said}");
        }
    }
}

#[test]
fn several_answers_and_wrong_ones() {
    let [zero, five] = ["0", "5"].map(|number| call(&["answer", number], b"").wrote);
    assert_eq!(call(&["answer", "0x0", "5"], b""), Ended::well(&format!("{zero}\n{five}")));
    let ended = call(&["answer", "19", "5"], b"");
    assert_eq!((ended.wrote.trim_start(), ended.status), (five.as_str(), Some(1)));
    assert_eq!(ended.said, "milestarling: 19 is no answer's number: they are 0 to 18\n");
    call(&["answer", "five"], b"").fails(2, "`five` is no number");
}

#[test]
fn a_trace_in_numbers_is_read() {
    let told = "step 1: load of 1 at 0x1000\nstep 2: store of 1 at 0x1010\n";
    assert_eq!(call(&["trace", "1", "4096", "65", "4112"], b""), Ended::well(told));
    assert_eq!(call(&["trace", "0x1", "0x1000", "65", "0x1010"], b""), Ended::well(told));
    let told = "step 1: prefetch\nstep 2: store of 32 at 0xffffffffffffffff\n";
    assert_eq!(call(&["trace", "0", "0", "96", "18446744073709551615"], b""), Ended::well(told));
    let ended = call(&["trace", "3", "0", "1", "16", "0", "16", "128", "0"], b"");
    assert_eq!((ended.wrote.as_str(), ended.status), ("step 2: load of 1 at 0x10\n", Some(1)));
    let said: Vec<&str> = ended.said.lines().collect();
    assert_eq!(said[0], "milestarling: step 1: no step leaves code 3 with address 0");
    assert_eq!(said[1], "milestarling: step 3: no step leaves code 0 with address 16");
    assert_eq!(said.len(), 3);
    call(&["trace", "1", "4096", "65"], b"").fails(2, "the last code has no address behind it");
    for words in [["trace", "1", "x"], ["trace", "x", "1"]] {
        call(&words, b"").fails(2, "`x` is no number of 64 bits: a trace in numbers has a code and an address");
    }
}
