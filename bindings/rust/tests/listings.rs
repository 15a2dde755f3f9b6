//! Listings of bytes, cut anywhere and into buffers of any length, held against the reference.

mod reference;
mod support;

use milestarling::{list, listing, raw, LINE_MAX};
use reference::{DONE, NO_ROOM};
use support::{any_word, distinct, Random};

fn image(random: &mut Random, length: usize) -> Vec<u8> {
    let mut bytes = Vec::with_capacity(length + 4);
    while bytes.len() < length {
        bytes.extend(any_word(random).to_le_bytes());
    }
    bytes.truncate(length);
    bytes
}

/// Compares the listing of bytes in an output of this length, and returns the answer.
fn compare(bytes: &[u8], room: usize) -> u8 {
    let mut ours = distinct(room);
    let mut theirs = ours.clone();
    let reply = raw::list(bytes, &mut ours);
    let (answer, length) = reference::listing::list(bytes, &mut theirs);
    let shown = &bytes[..bytes.len().min(40)];
    assert_eq!((reply.answer, reply.length), (answer as u64, length as u64), "{shown:02x?}.., {room}");
    let differs = ours.iter().zip(&theirs).position(|(our, their)| our != their);
    assert_eq!(differs, None, "the first byte that differs, {shown:02x?}.., {room}");
    answer
}

#[test]
fn random_bytes_and_rooms() {
    let mut random = Random::new(21);
    let mut counts = [0; 11];
    for _ in 0..60_000 {
        let limit = if random.once_in(50) { 4000 } else { 60 };
        let length = random.below(limit);
        let bytes = image(&mut random, length);
        let exact = reference::listing::listing(&bytes).len();
        let rooms = [exact, exact.saturating_sub(1), exact + random.below(100), random.below(exact + 1)];
        for room in rooms {
            counts[compare(&bytes, room) as usize] += 1;
        }
    }
    println!("listings by answer: {counts:?}");
    assert!(counts[DONE as usize] > 10_000 && counts[NO_ROOM as usize] > 10_000);
}

/// The longest lines, and a `short` one behind them.
#[test]
fn room_for_the_longest_lines() {
    for words in [0, 1, 2, 255, 256, 257, 4096] {
        let mut bytes = 0xf8aa_5940_u32.to_le_bytes().repeat(words);
        assert_eq!(list(&bytes, &mut vec![0; words * LINE_MAX]), Ok(words * LINE_MAX));
        bytes.extend([0xff; 3]);
        let room = words * LINE_MAX + 10;
        assert_eq!(list(&bytes, &mut vec![0; room]), Ok(room));
        assert_eq!(compare(&bytes, room), DONE);
        assert_eq!(compare(&bytes, room - 1), NO_ROOM);
    }
}

#[test]
fn cut_after_every_byte() {
    let mut random = Random::new(22);
    let bytes = image(&mut random, 600);
    for end in 0..=bytes.len() {
        let expected = reference::listing::listing(&bytes[..end]);
        assert_eq!(listing(&bytes[..end]), expected);
        compare(&bytes[..end], expected.len());
        let mut none = [];
        assert_eq!(list(&bytes[..end], &mut none).is_ok(), end == 0);
    }
}

/// The package lists in batches: the whole has to be one listing.
#[test]
fn about_the_ends_of_batches() {
    let mut random = Random::new(23);
    for length in (0..=16).chain(1016..1032).chain(2040..2056).chain([100_001]) {
        let bytes = image(&mut random, length);
        assert_eq!(listing(&bytes), reference::listing::listing(&bytes), "{length} bytes");
    }
}

#[test]
fn a_large_image() {
    let bytes = image(&mut Random::new(24), 2 * 1024 * 1024 + 3);
    let expected = reference::listing::listing(&bytes);
    compare(&bytes, expected.len());
    compare(&bytes, expected.len() - 1);
}
