use crate::{Instruction, Refusal};
use std::iter::FusedIterator;
use std::slice::ChunksExact;

/// The little-endian words of an image, each with its address and its instruction or the refusal that names it.
///
/// ```
/// let image = [0x20, 0x04, 0x40, 0xf9, 0xc0, 0x03, 0x5f, 0xd6, 0xff];
/// let mut words = milestarling::words(&image, 0x8000);
///
/// let (address, word, instruction) = words.next().unwrap();
/// assert_eq!((address, word), (0x8000, 0xf9400420));
/// assert_eq!(instruction.unwrap().to_string(), "ldr x0, [x1, #8]");
///
/// let (address, _, instruction) = words.next().unwrap();
/// assert_eq!(address, 0x8004);
/// assert_eq!(
///     instruction.unwrap_err().to_string(),
///     "refused (2): the word is no load or store that this machine takes, by d65f03c0",
/// );
///
/// assert!(words.next().is_none());
/// assert_eq!(words.rest(), [0xff]);
/// ```
pub fn words(image: &[u8], address: u64) -> Words<'_> {
    Words { chunks: image.chunks_exact(4), address }
}

/// What [`words`] returns. Addresses are counted modulo 2^64.
#[derive(Clone, Debug)]
pub struct Words<'a> {
    chunks: ChunksExact<'a, u8>,
    address: u64,
}

impl<'a> Words<'a> {
    /// The bytes behind the last whole word of the image, nought to three.
    pub fn rest(&self) -> &'a [u8] {
        self.chunks.remainder()
    }
}

impl Iterator for Words<'_> {
    type Item = (u64, u32, Result<Instruction, Refusal>);

    fn next(&mut self) -> Option<Self::Item> {
        let chunk = self.chunks.next()?;
        let word = u32::from_le_bytes([chunk[0], chunk[1], chunk[2], chunk[3]]);
        let address = self.address;
        self.address = address.wrapping_add(4);
        Some((address, word, Instruction::new(word)))
    }

    fn size_hint(&self) -> (usize, Option<usize>) {
        self.chunks.size_hint()
    }
}

impl ExactSizeIterator for Words<'_> {}

impl FusedIterator for Words<'_> {}
