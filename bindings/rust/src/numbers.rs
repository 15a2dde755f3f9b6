use crate::raw::Numbers;
use crate::{ffi, Answer, Direction, Instruction, Refusal};

/// The answer that depends on a word alone: done, not of the set, undefined or unpredictable.
///
/// ```
/// use milestarling::{classify, Answer};
///
/// assert_eq!(classify(0xf9400420), Answer::Done);
/// assert_eq!(classify(0xf8408421), Answer::Unpredictable); // ldr x1, [x1], #8
/// ```
#[must_use]
pub fn classify(word: u32) -> Answer {
    Answer::of_reply(ffi::classify(word))
}

/// Whether a word touches memory: Arm's top table has it among the loads and stores (bit 27 set, bit 25 clear), taken here
/// or not, or it is `dc zva`, `dc gva` or `dc gzva`.
///
/// A host asks it of each word first. One that touches memory is stepped, and the plugin is stopped where the step is
/// refused, with [`Answer::NotInSet`] too: the word is then a load or store that isn't taken. Any other word is the host's
/// to compute, and never one that a step takes.
///
/// ```
/// use milestarling::{classify, touches_memory, Answer};
///
/// assert!(touches_memory(0xf9400420)); // ldr x0, [x1, #8], which is taken
/// assert!(!touches_memory(0x91002000)); // add x0, x0, #8, which is the host's
/// // ld1 {v0.16b}, [x0], and dc zva, x0: neither is taken, and neither is to be computed and passed over
/// for word in [0x4c407000, 0xd50b7420] {
///     assert!(touches_memory(word) && classify(word) == Answer::NotInSet);
/// }
/// ```
///
/// By `dc zva` the C library's `memset` stores 64 zeros at once. A host shows a processor that hasn't got it, where
/// `mrs xt, dczid_el0` reads with DZP, bit 4, set (0x10), and `memset` then does without; or it stops at the word; or it
/// stores the zeros itself, untainted ([`Memory::write`](crate::Memory::write)), and lets every session's monitor observe
/// the store.
///
/// The loads and stores of SVE and SME stand in parts of Arm's table of their own (bits 28 to 25 are 0010, or bit 31 is set
/// and they are 0000) and aren't counted here, nor are the guarded control stack's, which are system instructions: a host
/// shows a processor without them (SVE of ID_AA64PFR0_EL1, SME and GCS of ID_AA64PFR1_EL1 and their HWCAP bits are 0), and
/// stops at their words, as at every word that it doesn't know.
#[must_use]
pub const fn touches_memory(word: u32) -> bool {
    word & 0x0a00_0000 == 0x0800_0000 || matches!(word & !31, 0xd50b_7420 | 0xd50b_7460 | 0xd50b_7480)
}

impl Instruction {
    /// The family, operation and operands of the word, as numbers.
    pub fn numbers(self) -> Numbers {
        ffi::decode(self.word()).numbers
    }
}

impl Numbers {
    /// The direction of a load.
    pub const LOAD: u32 = Direction::Load.number();
    /// The direction of a store.
    pub const STORE: u32 = Direction::Store.number();

    /// The one instruction that has these numbers. Every field counts, also one that the family hasn't got.
    ///
    /// # Errors
    ///
    /// [`Answer::NoSuchInstruction`].
    pub fn encode(self) -> Result<Instruction, Refusal> {
        let reply = ffi::encode(self);
        match Answer::of_reply(reply.answer) {
            // A word that was encoded has 32 bits and is allocated.
            Answer::Done => Ok(Instruction::of_allocated(reply.word as u32)),
            answer => Err(Refusal::new(answer)),
        }
    }
}
