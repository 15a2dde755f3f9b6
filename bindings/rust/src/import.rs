use crate::{ffi, Answer, Memory};
use std::error::Error;
use std::fmt;

/// Why a memory image wasn't read: an answer, and the line that is refused.
///
/// ```
/// use milestarling::{Answer, Memory, Window};
///
/// let mut memory = Memory::zeroed(Window::at(4096), 16);
/// let error = memory.import_hex(b":00000001FF\r\n").unwrap_err();
/// assert_eq!((error.answer(), error.line()), (Answer::Malformed, Some(1)));
/// assert_eq!(
///     error.to_string(),
///     "refused (13), line 1: the line isn't one of Intel HEX, stands after the end, or the end is missing",
/// );
/// ```
#[derive(Clone, Copy, Debug, PartialEq, Eq)]
pub struct ImportError {
    answer: Answer,
    line: u64,
}

impl ImportError {
    /// Why.
    pub fn answer(&self) -> Answer {
        self.answer
    }

    /// The number of the line that is refused, from 1, and for a missing end that of the line behind the last; none where the
    /// window is wrong.
    pub fn line(&self) -> Option<u64> {
        (self.line != 0).then_some(self.line)
    }
}

impl fmt::Display for ImportError {
    fn fmt(&self, f: &mut fmt::Formatter<'_>) -> fmt::Result {
        write!(f, "refused ({})", self.answer.number())?;
        if let Some(line) = self.line() {
            write!(f, ", line {line}")?;
        }
        match self.answer {
            Answer::OutOfWindow => f.write_str(": a byte of the line isn't inside the memory window"),
            answer => write!(f, ": {answer}"),
        }
    }
}

impl Error for ImportError {}

impl<M: AsRef<[u8]> + AsMut<[u8]>, T: AsRef<[u8]> + AsMut<[u8]>> Memory<M, T> {
    /// Reads a whole memory image in Intel HEX, as build tools export it, and takes the taint from each byte that it writes. It
    /// is the host's call, before a run or between two: the read-only beginning may be filled too, and the monitors of sessions
    /// in this memory have to be opened.
    ///
    /// Taken are types 00, 01 and 04, digits in either case, and lines that end in a newline alone, the last of them the end.
    /// `docs/ANSWERS.md` has the commands that make such a text of what objcopy writes.
    ///
    /// ```
    /// use milestarling::{Memory, Window};
    ///
    /// # fn main() -> Result<(), milestarling::ImportError> {
    /// let mut memory = Memory::zeroed(Window::at(0x10000), 4);
    /// memory.import_hex(b":020000040001F9\n:02000100aabb98\n:00000001FF\n")?;
    /// assert_eq!(memory.bytes(), [0, 0xaa, 0xbb, 0]);
    /// # Ok(())
    /// # }
    /// ```
    ///
    /// # Errors
    ///
    /// [`Answer::BadWindow`]; then of the lowest line that has a fault the first of [`Answer::Malformed`],
    /// [`Answer::BadChecksum`], [`Answer::BadRecordType`] and [`Answer::OutOfWindow`]. Nothing is changed then.
    pub fn import_hex(&mut self, text: &[u8]) -> Result<(), ImportError> {
        let window = self.window;
        let parts = self.parts_mut();
        let reply = ffi::import(text, window.origin, window.readonly, parts.bytes, parts.taint);
        match Answer::of_reply(reply.answer) {
            Answer::Done => Ok(()),
            answer => Err(ImportError { answer, line: reply.line }),
        }
    }
}
