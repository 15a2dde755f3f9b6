//! Listings of bytes that come in fragments: cut in every way and at random, with too little room, after closing, and from
//! listers that no call has made.

mod reference;
mod support;

use milestarling::{raw, Answer, Lister, ListingWriter, Refusal};
use reference::{streaming, CLOSED, DONE, NO_ROOM};
use std::collections::VecDeque;
use std::io::{self, ErrorKind, Write};
use support::{any_word, distinct, stored, Random};

/// Words of the stored corpus and their lines, which other tools have made.
struct Corpus {
    bytes: Vec<u8>,
    lines: Vec<String>,
}

impl Corpus {
    fn new() -> Corpus {
        let (bytes, output) = (stored("list", "stdin"), String::from_utf8(stored("list", "stdout")).unwrap());
        Corpus { bytes, lines: output.split_inclusive('\n').map(String::from).collect() }
    }

    /// So many bytes from a word on, with their listing.
    fn image(&self, word: usize, length: usize) -> (&[u8], String) {
        let mut expected = self.lines[word..word + length / 4].concat();
        if length % 4 != 0 {
            expected += &format!("short\t-\t{}\n", length % 4);
        }
        (&self.bytes[word * 4..word * 4 + length], expected)
    }
}

/// A lister with all that it has written.
struct Listed {
    lister: Lister,
    output: Vec<u8>,
}

impl Listed {
    fn new() -> Listed {
        Listed { lister: Lister::new(), output: Vec::new() }
    }

    /// Takes a fragment, or closes, with a room that just suffices, after one that doesn't.
    fn call(&mut self, fragment: Option<&[u8]>) {
        let mut room = distinct(200);
        let mut tried = self.lister;
        let length = call(&mut tried, fragment, &mut room).expect("200 bytes are room for four lines");
        let written = room[..length].to_vec();
        if length > 0 {
            room.copy_from_slice(&distinct(200));
            let refusal = call(&mut self.lister, fragment, &mut room[..length - 1]).unwrap_err();
            assert_eq!(refusal.answer(), Answer::NoRoom);
            assert_eq!(room, distinct(200));
        }
        assert_eq!(call(&mut self.lister, fragment, &mut room[..length]), Ok(length));
        assert_eq!((self.lister, &room[..length]), (tried, &written[..]));
        self.output.extend(written);
    }
}

fn call(lister: &mut Lister, fragment: Option<&[u8]>, output: &mut [u8]) -> Result<usize, Refusal> {
    match fragment {
        Some(fragment) => lister.push(fragment, output),
        None => lister.close(output),
    }
}

/// The parts of bytes that are cut behind each byte whose bit is set.
fn cut(bytes: &[u8], after: usize) -> Vec<&[u8]> {
    let (mut parts, mut start) = (Vec::new(), 0);
    for end in 1..bytes.len() {
        if after >> (end - 1) & 1 == 1 {
            parts.push(&bytes[start..end]);
            start = end;
        }
    }
    parts.push(&bytes[start..]);
    parts
}

#[test]
fn cut_in_every_way() {
    let corpus = Corpus::new();
    let mut random = Random::new(31);
    for length in 0..=13_usize {
        for _ in 0..8 {
            let word = random.below(corpus.lines.len() - 4);
            let (bytes, expected) = corpus.image(word, length);
            for after in 0..1 << length.saturating_sub(1) {
                // Once as it is, and once with an empty fragment before and behind each.
                for empty in [false, true] {
                    let mut listed = Listed::new();
                    for part in cut(bytes, after) {
                        if empty {
                            listed.call(Some(&[]));
                        }
                        listed.call(Some(part));
                    }
                    if empty {
                        listed.call(Some(&[]));
                    }
                    listed.call(None);
                    assert!(listed.output == expected.as_bytes(), "{bytes:02x?} cut after {after:b}");
                }
            }
        }
    }
}

#[test]
fn the_corpus_cut_at_random() {
    let corpus = Corpus::new();
    let mut random = Random::new(32);
    for (over, limit) in [(0, 2), (1, 9), (2, 70), (3, 5000), (0, 100_000), (0, 1 << 30)] {
        let length = corpus.bytes.len() / 4 * 4 - 4 + over;
        let (mut bytes, expected) = corpus.image(0, length);
        let (mut lister, mut writer) = (Lister::new(), ListingWriter::new(Vec::new()));
        let (mut output, mut room) = (Vec::<u8>::new(), vec![0; expected.len()]);
        while !bytes.is_empty() {
            let (part, rest) = bytes.split_at(random.below(limit).min(bytes.len()));
            let written = lister.push(part, &mut room).unwrap();
            output.extend(&room[..written]);
            writer.write_all(part).unwrap();
            assert_eq!(writer.get_ref().len(), output.len(), "a line that is whole isn't there");
            bytes = rest;
        }
        let written = lister.close(&mut room).unwrap();
        output.extend(&room[..written]);
        writer.finish().unwrap();
        assert!(output == expected.as_bytes(), "fragments below {limit} bytes");
        assert!(writer.into_inner() == expected.as_bytes(), "a writer of fragments below {limit} bytes");
    }
}

/// A lister in the library's form and in the reference's.
fn both(held: [u8; 3], count: u8, closed: u8) -> (raw::Lister, streaming::Lister) {
    let [first, second, third] = held;
    let held = held.into_iter().take(count.into()).collect();
    let theirs = streaming::Lister { held, count: count.into(), closed: closed != 0 };
    (raw::Lister { first, second, third, count, closed }, theirs)
}

/// Compares one call in an output of this length, and returns the answer with the listers after it.
fn compare(
    lister: raw::Lister,
    mut theirs: streaming::Lister,
    fragment: Option<&[u8]>,
    room: usize,
) -> (u8, raw::Lister, streaming::Lister) {
    let (mut output, mut expected) = (distinct(room), distinct(room));
    let reply = match fragment {
        Some(fragment) => raw::lister_push(lister, fragment, &mut output),
        None => raw::lister_close(lister, &mut output),
    };
    let (answer, length) = theirs.call(fragment, &mut expected);
    let context = || format!("{lister:?}, {fragment:02x?}, {room}");
    assert_eq!((reply.answer, reply.length), (answer.into(), length as u64), "{}", context());
    assert!(output == expected, "{}", context());
    if answer == DONE {
        let held = Lister::from(reply.lister).held();
        let closed = reply.lister.closed != 0;
        assert_eq!((held, reply.lister.count.into(), closed), (theirs.held.clone(), theirs.count, theirs.closed));
    } else {
        assert_eq!(reply.lister, lister, "{}", context());
    }
    (answer, reply.lister, theirs)
}

/// Lists of calls with rooms about the exact one, refused calls among them, which are repeated or not.
#[test]
fn random_calls_and_rooms() {
    let mut random = Random::new(33);
    let mut counts = [0; 17];
    for _ in 0..20_000 {
        let (mut lister, mut theirs) = (raw::Lister::default(), streaming::Lister::new());
        let (mut taken, mut output): (Vec<u8>, Vec<u8>) = (Vec::new(), Vec::new());
        while !theirs.closed {
            let bytes: Vec<u8> = (0..4).flat_map(|_| any_word(&mut random).to_le_bytes()).collect();
            let length = random.below(bytes.len() + 1);
            let fragment = (!random.once_in(6)).then_some(&bytes[..length]);
            let mut room = distinct(400);
            let exact = theirs.clone().call(fragment, &mut room).1;
            for about in [0, exact.saturating_sub(1 + random.below(4)), exact.saturating_sub(1)] {
                if about < exact {
                    assert_eq!(compare(lister, theirs.clone(), fragment, about).0, NO_ROOM);
                    counts[NO_ROOM as usize] += 1;
                }
            }
            if random.once_in(5) {
                continue;
            }
            let spare = random.below(5);
            let answer;
            (answer, lister, theirs) = compare(lister, theirs, fragment, exact + spare);
            assert_eq!(answer, DONE);
            counts[DONE as usize] += 1;
            taken.extend(fragment.unwrap_or(&[]));
            output.extend(&room[..exact]);
        }
        for fragment in [None, Some(&taken[..]), Some(&[])] {
            for room in [0, 400] {
                assert_eq!(compare(lister, theirs.clone(), fragment, room).0, CLOSED);
                counts[CLOSED as usize] += 1;
            }
        }
        assert!(output == reference::listing::listing(&taken).as_bytes());
    }
    println!("calls by answer: {counts:?}");
    assert!([DONE, NO_ROOM, CLOSED].iter().all(|&answer| counts[answer as usize] > 50_000));
}

/// Every count and some numbers that say closed, with room and without.
#[test]
fn listers_that_no_call_has_made() {
    let held = [0x20, 0xf0, 0x5f];
    for count in 0..=255 {
        for closed in [0, 1, 2, 128, 255] {
            for fragment in [None, Some(&[][..]), Some(&[0x38][..]), Some(&[0x38, 1, 2, 3, 0x91, 5][..])] {
                for room in [0, 9, 10, 12, 13, 30, 31, 100] {
                    let (lister, theirs) = both(held, count, closed);
                    let (answer, ..) = compare(lister, theirs, fragment, room);
                    assert_eq!(answer == CLOSED, closed != 0 || count > 3);
                }
            }
        }
    }
}

/// A writer that takes at most so many bytes at once, and answers each call with the next of these first.
#[derive(Default)]
struct Slow {
    taken: Vec<u8>,
    most: usize,
    errors: VecDeque<Option<ErrorKind>>,
}

impl Write for Slow {
    fn write(&mut self, bytes: &[u8]) -> io::Result<usize> {
        if let Some(kind) = self.errors.pop_front().flatten() {
            return Err(kind.into());
        }
        let length = bytes.len().min(self.most);
        self.taken.extend(&bytes[..length]);
        Ok(length)
    }

    fn flush(&mut self) -> io::Result<()> {
        Ok(())
    }
}

/// No line is lost or written twice, whatever the other writer refuses: what wasn't taken is handed in again.
#[test]
fn a_writer_that_fails_now_and_then() {
    let corpus = Corpus::new();
    let (bytes, expected) = corpus.image(0, 4001);
    let mut random = Random::new(34);
    let kinds = [None, None, Some(ErrorKind::Interrupted), Some(ErrorKind::WouldBlock), Some(ErrorKind::BrokenPipe)];
    for _ in 0..50 {
        let errors = (0..3000).map(|_| *random.choose(&kinds)).collect();
        let mut writer = ListingWriter::new(Slow { most: 1 + random.below(90), errors, ..Slow::default() });
        let (mut rest, mut failed) = (bytes, 0);
        while !rest.is_empty() {
            match writer.write(&rest[..rest.len().min(random.below(40))]) {
                Ok(length) => rest = &rest[length..],
                Err(error) => {
                    assert_ne!(error.kind(), ErrorKind::Interrupted);
                    failed += 1;
                }
            }
        }
        while writer.finish().is_err() {
            failed += 1;
        }
        assert!(failed > 0 && writer.get_ref().taken == expected.as_bytes());
    }
}

#[test]
fn a_writer_that_takes_nothing() {
    let mut writer = ListingWriter::new(Slow::default());
    assert_eq!(writer.write(&[0; 8]).unwrap(), 8);
    assert_eq!(writer.write(&[0; 8]).unwrap_err().kind(), ErrorKind::WriteZero);
    assert_eq!(writer.flush().unwrap_err().kind(), ErrorKind::WriteZero);
    assert_eq!(writer.finish().unwrap_err().kind(), ErrorKind::WriteZero);
    writer.get_mut().most = 5;
    writer.finish().unwrap();
    assert_eq!(writer.into_inner().taken, "00000000\t-\t2\n".repeat(2).as_bytes());
}

#[test]
fn a_writer_that_is_finished() {
    let mut writer = ListingWriter::new(Vec::new());
    writer.write_all(&[1, 2]).unwrap();
    writer.finish().unwrap();
    writer.finish().unwrap();
    let error = writer.write(&[3]).unwrap_err();
    let refusal = error.get_ref().and_then(|inner| inner.downcast_ref::<Refusal>()).unwrap();
    assert_eq!((error.kind(), refusal.answer()), (ErrorKind::InvalidInput, Answer::Closed));
    assert_eq!(writer.into_inner(), b"short\t-\t2\n");
}
