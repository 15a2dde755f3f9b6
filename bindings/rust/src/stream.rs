use crate::text::BATCH;
use crate::{ffi, raw, Answer, Refusal, LINE_MAX};
use std::io::{self, ErrorKind, Write};

/// Lists bytes that come in fragments, into buffers that are lent to it.
///
/// A fragment has any length and may end inside a word: the lister holds the bytes behind the last whole word, at most
/// three, until the next one. However bytes are cut, what the calls write that aren't refused, up to the one that closes
/// the lister, is [`listing`](crate::listing) of their fragments one behind the other. That is proved of every list of
/// calls.
///
/// [`ListingWriter`] has the buffers too.
///
/// ```
/// use milestarling::{Answer, Lister};
///
/// # fn main() -> Result<(), milestarling::Refusal> {
/// let mut lister = Lister::new();
/// let mut output = [0; 64];
/// assert_eq!(lister.push(&[0x20, 0x04, 0x40], &mut output)?, 0);
/// assert_eq!(lister.held(), [0x20, 0x04, 0x40]);
///
/// // A refusal changes nothing, and the call may be repeated.
/// assert_eq!(lister.push(&[0xf9, 0xff], &mut output[..20]).unwrap_err().answer(), Answer::NoRoom);
/// let length = lister.push(&[0xf9, 0xff], &mut output)?;
/// assert_eq!(&output[..length], b"f9400420\tldr x0, [x1, #8]\t0\n");
///
/// let length = lister.close(&mut output)?;
/// assert_eq!(&output[..length], b"short\t-\t1\n");
/// assert_eq!(lister.push(&[], &mut output).unwrap_err().answer(), Answer::Closed);
/// # Ok(())
/// # }
/// ```
#[derive(Clone, Copy, Debug, Default, PartialEq, Eq, Hash)]
pub struct Lister(raw::Lister);

impl Lister {
    /// A lister that holds nothing.
    pub fn new() -> Lister {
        Lister::default()
    }

    /// The bytes behind the last whole word.
    ///
    /// A lister that was made from a [`raw::Lister`] with a count above 3 shows three, and every call with it is refused.
    pub fn held(&self) -> Vec<u8> {
        let raw::Lister { first, second, third, count, .. } = self.0;
        [first, second, third].into_iter().take(count.into()).collect()
    }

    /// Whether it was closed.
    pub fn is_closed(&self) -> bool {
        self.0.closed != 0
    }

    /// Writes the lines of the words that are whole with this fragment to the start of a buffer and returns their
    /// length. The rest of the buffer stays.
    ///
    /// [`LINE_MAX`] bytes for each four of the held bytes and the fragment are room for any lines.
    ///
    /// # Errors
    ///
    /// [`Answer::Closed`] where the lister is closed, and then [`Answer::NoRoom`] where the buffer is shorter than the
    /// lines. Lister and buffer are unchanged then.
    pub fn push(&mut self, fragment: &[u8], output: &mut [u8]) -> Result<usize, Refusal> {
        self.after(ffi::lister_push(self.0, fragment, output))
    }

    /// Writes the `short` line of the bytes that are left over, where there are any, to the start of a buffer, returns its
    /// length, and closes the lister. The rest of the buffer stays.
    ///
    /// # Errors
    ///
    /// As for [`push`](Lister::push). Ten bytes are room for the line.
    pub fn close(&mut self, output: &mut [u8]) -> Result<usize, Refusal> {
        self.after(ffi::lister_close(self.0, output))
    }

    fn after(&mut self, reply: raw::ListerReply) -> Result<usize, Refusal> {
        match Answer::of_reply(reply.answer) {
            Answer::Done => {
                self.0 = reply.lister;
                // It is at most the length of a buffer.
                Ok(reply.length as usize)
            }
            answer => Err(Refusal::new(answer)),
        }
    }
}

/// Any one: hostile ones are refused by each call.
impl From<raw::Lister> for Lister {
    fn from(lister: raw::Lister) -> Lister {
        Lister(lister)
    }
}

impl From<Lister> for raw::Lister {
    fn from(lister: Lister) -> raw::Lister {
        lister.0
    }
}

/// A writer of bytes that writes their listing to another writer, each line as soon as its word is whole.
///
/// It hands on whole batches of lines, so that the other writer needs no buffer of its own. [`finish`] ends the listing:
/// without it the `short` line of left-over bytes is missing, and what the other writer hasn't taken yet is lost.
///
/// ```
/// use milestarling::ListingWriter;
/// use std::io::Write;
///
/// # fn main() -> std::io::Result<()> {
/// let mut writer = ListingWriter::new(Vec::new());
/// writer.write_all(&[0x20, 0x04, 0x40])?;
/// writer.write_all(&[0xf9, 0xff])?;
/// assert_eq!(writer.get_ref(), b"f9400420\tldr x0, [x1, #8]\t0\n");
/// writer.finish()?;
/// assert_eq!(writer.into_inner(), b"f9400420\tldr x0, [x1, #8]\t0\nshort\t-\t1\n");
/// # Ok(())
/// # }
/// ```
///
/// With [`std::io::copy`] it lists a whole file or pipe:
///
/// ```no_run
/// use milestarling::ListingWriter;
/// use std::io;
///
/// # fn main() -> io::Result<()> {
/// let mut writer = ListingWriter::new(io::stdout().lock());
/// io::copy(&mut io::stdin().lock(), &mut writer)?;
/// writer.finish()
/// # }
/// ```
///
/// [`finish`]: ListingWriter::finish
#[derive(Debug)]
pub struct ListingWriter<W> {
    inner: W,
    lister: Lister,
    /// Room for the lines of one batch, of which those from `start` to `end` are still to be written.
    lines: Vec<u8>,
    start: usize,
    end: usize,
}

impl<W: Write> ListingWriter<W> {
    /// Lists to a writer.
    pub fn new(inner: W) -> ListingWriter<W> {
        // With three bytes held, a batch makes no more words than it has itself.
        ListingWriter { inner, lister: Lister::new(), lines: vec![0; BATCH * LINE_MAX], start: 0, end: 0 }
    }

    /// Writes all that is left, the `short` line of left-over bytes too, and flushes the writer. Bytes that come after it
    /// are refused with an error.
    ///
    /// # Errors
    ///
    /// Those of the writer. It may be called again then, and goes on where it stopped.
    pub fn finish(&mut self) -> io::Result<()> {
        self.write_lines()?;
        if !self.lister.is_closed() {
            let length = self.lister.close(&mut self.lines).map_err(refused)?;
            (self.start, self.end) = (0, length);
        }
        self.flush()
    }

    /// Writes the lines that are still to be written.
    fn write_lines(&mut self) -> io::Result<()> {
        while self.start < self.end {
            match self.inner.write(&self.lines[self.start..self.end]) {
                Ok(0) => return Err(ErrorKind::WriteZero.into()),
                Ok(length) => self.start += length,
                Err(error) if error.kind() == ErrorKind::Interrupted => {}
                Err(error) => return Err(error),
            }
        }
        Ok(())
    }
}

impl<W> ListingWriter<W> {
    /// The writer that it lists to.
    pub fn get_ref(&self) -> &W {
        &self.inner
    }

    /// The writer that it lists to. What is written to it directly stands between two lines or inside one.
    pub fn get_mut(&mut self) -> &mut W {
        &mut self.inner
    }

    /// Gives back the writer that it lists to, without [`finish`](ListingWriter::finish).
    pub fn into_inner(self) -> W {
        self.inner
    }
}

fn refused(refusal: Refusal) -> io::Error {
    io::Error::new(ErrorKind::InvalidInput, refusal)
}

/// An error of the other writer is returned before any byte is taken: by this call, or by the next where it comes up only
/// once the bytes of this one are taken.
impl<W: Write> Write for ListingWriter<W> {
    fn write(&mut self, bytes: &[u8]) -> io::Result<usize> {
        self.write_lines()?;
        let batch = &bytes[..bytes.len().min(BATCH * 4)];
        let length = self.lister.push(batch, &mut self.lines).map_err(refused)?;
        (self.start, self.end) = (0, length);
        // What fails here is tried again by the next call, and is then returned.
        let _ = self.write_lines();
        Ok(batch.len())
    }

    fn flush(&mut self) -> io::Result<()> {
        self.write_lines()?;
        self.inner.flush()
    }
}
