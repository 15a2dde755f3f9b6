//! Words, and a register's value as a log may have it.

use crate::raw::WordReply;
use crate::{Copied, Refusal};
use std::{array, fmt};

/// A word by its eight hexadecimal digits, as every listing has it.
struct Word(u32);

impl fmt::Debug for Word {
    fn fmt(&self, f: &mut fmt::Formatter<'_>) -> fmt::Result {
        write!(f, "{:#010x}", self.0)
    }
}

impl fmt::Debug for Refusal {
    fn fmt(&self, f: &mut fmt::Formatter<'_>) -> fmt::Result {
        f.debug_struct("Refusal")
            .field("answer", &self.answer())
            .field("steps", &self.steps())
            .field("address", &self.address())
            .field("word", &self.word().map(Word))
            .finish()
    }
}

impl fmt::Debug for Copied {
    fn fmt(&self, f: &mut fmt::Formatter<'_>) -> fmt::Result {
        f.debug_struct("Copied")
            .field("step", &self.step)
            .field("word", &Word(self.word))
            .field("from", &self.from)
            .finish()
    }
}

impl fmt::Debug for WordReply {
    fn fmt(&self, f: &mut fmt::Formatter<'_>) -> fmt::Result {
        // A reply's word has 32 bits.
        f.debug_struct("WordReply").field("answer", &self.answer).field("word", &Word(self.word as u32)).finish()
    }
}

/// The whole value where it is known, and its bytes, the lowest first.
pub(crate) struct Shown<T, const N: usize> {
    pub(crate) known: Option<T>,
    pub(crate) bytes: [Option<u8>; N],
}

/// The bytes that aren't tainted.
pub(crate) fn known_bytes<const N: usize>(bytes: [u8; N], tainted: impl Fn(usize) -> bool) -> [Option<u8>; N] {
    array::from_fn(|byte| (!tainted(byte)).then_some(bytes[byte]))
}

impl<T: fmt::LowerHex, const N: usize> fmt::Display for Shown<T, N> {
    fn fmt(&self, f: &mut fmt::Formatter<'_>) -> fmt::Result {
        if let Some(value) = &self.known {
            return write!(f, "{value:#x}");
        }
        f.write_str("0x")?;
        self.bytes.iter().rev().try_for_each(|byte| match byte {
            Some(byte) => write!(f, "{byte:02x}"),
            None => f.write_str("**"),
        })
    }
}

impl<T: fmt::LowerHex, const N: usize> fmt::Debug for Shown<T, N> {
    fn fmt(&self, f: &mut fmt::Formatter<'_>) -> fmt::Result {
        fmt::Display::fmt(self, f)
    }
}
