//! The listing of bytes, at the end of "Lines of text".

use super::decoding::{classify, decode};
use super::writing::line;
use super::{DONE, NO_ROOM};

/// The whole listing.
pub fn listing(bytes: &[u8]) -> String {
    let mut output = String::new();
    let words = bytes.chunks_exact(4);
    let rest = words.remainder();
    for word in words {
        let word = u32::from_le_bytes(word.try_into().unwrap());
        let text = decode(word).map_or("-".to_string(), |instruction| line(&instruction));
        output += &format!("{word:08x}\t{text}\t{}\n", classify(word));
    }
    if !rest.is_empty() {
        output += &format!("short\t-\t{}\n", rest.len());
    }
    output
}

/// Lists bytes into a lent buffer: the answer and the length.
pub fn list(bytes: &[u8], output: &mut [u8]) -> (u8, usize) {
    let text = listing(bytes);
    match output.get_mut(..text.len()) {
        None => (NO_ROOM, 0),
        Some(room) => {
            room.copy_from_slice(text.as_bytes());
            (DONE, text.len())
        }
    }
}
