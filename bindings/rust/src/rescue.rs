//! Rescue of damaged listings.

use crate::{ffi, Answer};
use std::fmt;
use std::str::{FromStr, Lines};

/// The most bytes that a line gains, and the most bytes of its line in the report.
const GAIN: usize = 10;
const REPORT_LINE_MAX: usize = 30;

/// What became of a line of a damaged listing.
#[derive(Clone, Copy, Debug, PartialEq, Eq, Hash)]
pub enum Fate {
    /// It is exactly what its eight digits give.
    Kept,
    /// Its digits are damaged, and its text is that of an allocated word, whose line stands for it.
    Restored,
    /// It is neither. `short` lines are dropped too.
    Dropped,
}

impl Fate {
    fn name(self) -> &'static str {
        match self {
            Fate::Kept => "kept",
            Fate::Restored => "restored",
            Fate::Dropped => "dropped",
        }
    }

    fn of_name(name: &str) -> Fate {
        let fates = [Fate::Kept, Fate::Restored, Fate::Dropped];
        fates.into_iter().find(|fate| fate.name() == name).expect("the report has these names")
    }
}

impl fmt::Display for Fate {
    fn fmt(&self, f: &mut fmt::Formatter<'_>) -> fmt::Result {
        f.pad(self.name())
    }
}

/// A rescued listing, and what became of each line of the damaged one.
#[derive(Clone, Debug, PartialEq, Eq)]
pub struct Rescued {
    listing: String,
    report: String,
}

impl Rescued {
    /// The lines that were kept and restored, each with its newline. Each is the line of a word.
    pub fn listing(&self) -> &str {
        &self.listing
    }

    /// Likewise, without a copy.
    pub fn into_listing(self) -> String {
        self.listing
    }

    /// A line for each line of the damaged listing: its number from 1, a tab, and what became of it.
    pub fn report(&self) -> &str {
        &self.report
    }

    /// The same, line by line.
    pub fn fates(&self) -> Fates<'_> {
        Fates { rows: self.report.lines() }
    }

    /// How many lines had this fate.
    pub fn count(&self, fate: Fate) -> usize {
        self.fates().filter(|&(_, of_line)| of_line == fate).count()
    }
}

/// The number of each line, from 1, and what became of it. [`Rescued::fates`] makes it.
#[derive(Clone, Debug)]
pub struct Fates<'a> {
    rows: Lines<'a>,
}

impl Iterator for Fates<'_> {
    type Item = (u64, Fate);

    fn next(&mut self) -> Option<(u64, Fate)> {
        let (number, name) = self.rows.next()?.split_once('\t').expect("a row has a tab");
        Some((u64::from_str(number).expect("a row has a number"), Fate::of_name(name)))
    }
}

/// Rescues a damaged listing, line by line; the last line may lack its newline.
///
/// A line that is exactly what its eight lower-case hex digits give is kept. A line of two tabs whose first field isn't such
/// digits, but whose second is the text of an allocated word, is restored from that text. Any other is dropped.
///
/// ```
/// use milestarling::{rescue, Fate};
///
/// let damaged = b"f9400420\tldr x0, [x1, #8]\t0\n840842\tldr x1, [x1], #8\t4\nf9400421\tldr x0, [x1, #8]\t0";
/// let rescued = rescue(damaged);
/// assert_eq!(rescued.listing(), "f9400420\tldr x0, [x1, #8]\t0\nf8408421\tldr x1, [x1], #8\t4\n");
/// let fates: Vec<_> = rescued.fates().collect();
/// assert_eq!(fates, [(1, Fate::Kept), (2, Fate::Restored), (3, Fate::Dropped)]);
/// assert_eq!(rescue(rescued.listing().as_bytes()).count(Fate::Kept), 2);
/// ```
pub fn rescue(damaged: &[u8]) -> Rescued {
    // No listing has more lines than newlines and one, and rooms for so many always suffice.
    let lines = damaged.iter().filter(|&&byte| byte == b'\n').count() + 1;
    let (mut listing, mut report) = (vec![0; damaged.len() + lines * GAIN], vec![0; lines * REPORT_LINE_MAX]);
    let reply = ffi::rescue(damaged, &mut listing, &mut report);
    assert_eq!(Answer::of_reply(reply.answer), Answer::Done, "rooms by the lines suffice");
    Rescued { listing: text(listing, reply.length), report: text(report, reply.report_length) }
}

fn text(mut bytes: Vec<u8>, length: u64) -> String {
    // It is at most the length of the buffer.
    bytes.truncate(length as usize);
    String::from_utf8(bytes).expect("the library writes nothing but ASCII")
}
