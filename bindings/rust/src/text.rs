use crate::{ffi, Answer, Refusal};
use std::fmt;
use std::str::FromStr;

/// The most bytes that a line of a listing has, its newline included: eight digits, a tab, the text, a tab, a digit and a
/// newline.
///
/// So many for each word, and 10 for bytes left over, are room for any listing.
///
/// ```
/// use milestarling::{list, LINE_MAX};
///
/// let mut output = [0; LINE_MAX];
/// assert_eq!(list(&0xf8aa5940_u32.to_le_bytes(), &mut output), Ok(LINE_MAX));
/// assert_eq!(&output[..], b"f8aa5940\tprfm pldl1keep, [x10, w10, uxtw #3]\t0\n");
/// ```
pub const LINE_MAX: usize = 8 + 1 + Instruction::TEXT_MAX + 1 + 1 + 1;

/// Words that are listed at once. Enough for a call to cost nothing, and small enough for a cache.
pub(crate) const BATCH: usize = 256;

/// An allocated word: a load or store of the set that isn't undefined.
///
/// It shows itself as its line of text, and is parsed from exactly that line. Every line has one word and every word
/// one line.
///
/// ```
/// use milestarling::{Answer, Instruction};
///
/// # fn main() -> Result<(), milestarling::Refusal> {
/// let instruction = Instruction::new(0xa9bf7bfd)?;
/// assert_eq!(instruction.to_string(), "stp x29, x30, [sp, #-16]!");
///
/// let same: Instruction = "stp x29, x30, [sp, #-16]!".parse()?;
/// assert_eq!(same.word(), 0xa9bf7bfd);
///
/// assert_eq!(Instruction::new(0x91000000).unwrap_err().answer(), Answer::NotInSet);
/// let read = "STP x29, x30, [sp, #-16]!".parse::<Instruction>();
/// assert_eq!(read.unwrap_err().answer(), Answer::NoSuchText);
/// # Ok(())
/// # }
/// ```
#[derive(Clone, Copy, PartialEq, Eq, PartialOrd, Ord, Hash)]
pub struct Instruction(u32);

impl Instruction {
    /// The most bytes that a text has. No word's is proved to be longer, and that of f8aa5940 is as long.
    ///
    /// ```
    /// use milestarling::Instruction;
    ///
    /// # fn main() -> Result<(), milestarling::Refusal> {
    /// assert_eq!(Instruction::new(0xf8aa5940)?.to_string().len(), Instruction::TEXT_MAX);
    /// # Ok(())
    /// # }
    /// ```
    pub const TEXT_MAX: usize = 35;

    /// The instruction of a word.
    ///
    /// # Errors
    ///
    /// [`Answer::NotInSet`] or [`Answer::Undefined`]. A word that a step refuses as unpredictable is an instruction.
    pub fn new(word: u32) -> Result<Instruction, Refusal> {
        // An allocated word is one whose text only lacks room.
        match Answer::of_reply(ffi::text(word, &mut []).answer) {
            Answer::NoRoom => Ok(Instruction(word)),
            answer => Err(Refusal::new(answer).of_word(Some(&word))),
        }
    }

    /// The instruction of a word that the library gave as an allocated one.
    pub(crate) const fn of_allocated(word: u32) -> Instruction {
        Instruction(word)
    }

    /// The word.
    pub const fn word(self) -> u32 {
        self.0
    }

    /// Reads a line that may not be UTF-8.
    ///
    /// # Errors
    ///
    /// [`Answer::NoSuchText`].
    pub fn from_line(line: &[u8]) -> Result<Instruction, Refusal> {
        let reply = ffi::word(line);
        match Answer::of_reply(reply.answer) {
            // A word that was read has 32 bits.
            Answer::Done => Ok(Instruction::of_allocated(reply.word as u32)),
            answer => Err(Refusal::new(answer)),
        }
    }

    /// Writes the line to the start of a buffer and returns its length. The rest of the buffer stays.
    ///
    /// # Errors
    ///
    /// [`Answer::NoRoom`] where the buffer is shorter than the line. It is unchanged then.
    ///
    /// ```
    /// use milestarling::Instruction;
    ///
    /// # fn main() -> Result<(), milestarling::Refusal> {
    /// let mut buffer = [b'.'; 24];
    /// let length = Instruction::new(0xf8800020)?.write(&mut buffer)?;
    /// assert_eq!(&buffer[..length], b"prfum pldl1keep, [x1]");
    /// # Ok(())
    /// # }
    /// ```
    pub fn write(self, buffer: &mut [u8]) -> Result<usize, Refusal> {
        written(ffi::text(self.0, buffer))
    }
}

fn written(reply: crate::raw::TextReply) -> Result<usize, Refusal> {
    match Answer::of_reply(reply.answer) {
        // It is at most the length of a buffer.
        Answer::Done => Ok(reply.length as usize),
        answer => Err(Refusal::new(answer)),
    }
}

fn shown(bytes: &[u8]) -> &str {
    std::str::from_utf8(bytes).expect("the library writes nothing but ASCII")
}

impl fmt::Display for Instruction {
    fn fmt(&self, f: &mut fmt::Formatter<'_>) -> fmt::Result {
        let mut line = [0; Instruction::TEXT_MAX];
        let length = self.write(&mut line).expect("an allocated word has a line of bounded length");
        f.pad(shown(&line[..length]))
    }
}

impl fmt::Debug for Instruction {
    fn fmt(&self, f: &mut fmt::Formatter<'_>) -> fmt::Result {
        write!(f, "Instruction({:#010x}, {self})", self.0)
    }
}

impl FromStr for Instruction {
    type Err = Refusal;

    fn from_str(line: &str) -> Result<Instruction, Refusal> {
        Instruction::from_line(line.as_bytes())
    }
}

impl TryFrom<u32> for Instruction {
    type Error = Refusal;

    fn try_from(word: u32) -> Result<Instruction, Refusal> {
        Instruction::new(word)
    }
}

impl From<Instruction> for u32 {
    fn from(instruction: Instruction) -> u32 {
        instruction.0
    }
}

/// The listing of bytes: for each little-endian word its digits, its text or `-`, and the answer 0, 2, 3 or 4, parted
/// by tabs; left-over bytes give a last line `short`.
///
/// ```
/// let bytes = [0x20, 0xf0, 0x5f, 0x38, 0x00, 0x00, 0x00, 0x91, 0x21, 0x84, 0x40, 0xf8, 0xff];
/// assert_eq!(
///     milestarling::listing(&bytes),
///     "385ff020\tldurb w0, [x1, #-1]\t0\n91000000\t-\t2\nf8408421\tldr x1, [x1], #8\t4\nshort\t-\t1\n",
/// );
/// ```
pub fn listing(bytes: &[u8]) -> String {
    let mut whole = String::new();
    // An output that has room for any batch isn't measured.
    let mut output = [0; BATCH * LINE_MAX + 10];
    // A batch ends between two words, so that only the last one can have bytes over.
    for batch in bytes.chunks(BATCH * 4) {
        let length = list(batch, &mut output).expect("a batch's listing has a bounded length");
        whole.push_str(shown(&output[..length]));
    }
    whole
}

/// Writes the listing of bytes to the start of a buffer and returns its length. The rest of the buffer stays.
///
/// # Errors
///
/// [`Answer::NoRoom`] where the buffer is shorter than the listing. It is unchanged then.
///
/// ```
/// use milestarling::{list, Answer};
///
/// let mut output = [0; 64];
/// assert_eq!(list(&[0xff], &mut output), Ok(10));
/// assert_eq!(&output[..10], b"short\t-\t1\n");
/// assert_eq!(list(&[0xff], &mut output[..9]).unwrap_err().answer(), Answer::NoRoom);
/// ```
pub fn list(bytes: &[u8], output: &mut [u8]) -> Result<usize, Refusal> {
    written(ffi::list(bytes, output))
}
