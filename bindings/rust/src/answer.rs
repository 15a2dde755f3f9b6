use crate::Instruction;
use std::error::Error;
use std::fmt;

/// An answer, with its number in documents 01 and 02.
///
/// ```
/// use milestarling::Answer;
///
/// assert_eq!(Answer::OutOfWindow.number(), 7);
/// assert_eq!(Answer::try_from(8), Ok(Answer::ReadOnly));
/// assert!(Answer::try_from(19).is_err());
/// assert_eq!(Answer::TaintedAddress.to_string(), "the address would come from a secret value");
/// ```
#[derive(Clone, Copy, Debug, PartialEq, Eq, PartialOrd, Ord, Hash)]
#[non_exhaustive]
#[repr(u8)]
pub enum Answer {
    /// It was done.
    Done = 0,
    /// The window, the number of taint bytes or PC is wrong, or of the ranges of two plugins two have a byte in common or one
    /// isn't inside the window.
    BadWindow = 1,
    /// The word is no load or store that this machine takes. Whether it touches memory all the same, and so isn't the host's
    /// to compute, [`touches_memory`](crate::touches_memory) says.
    NotInSet = 2,
    /// The word is one of the loads and stores that Arm left undefined, or has unused register fields that aren't all
    /// ones.
    Undefined = 3,
    /// The word is allocated, and its registers collide: also the status register of a store-exclusive with its data
    /// register or its base.
    Unpredictable = 4,
    /// The base or the index register is tainted.
    TaintedAddress = 5,
    /// SP is the base and isn't a multiple of 16, the address of an exclusive access isn't a multiple of its size, or an
    /// ordered access crosses the border of a 16-byte block.
    Misaligned = 6,
    /// The access isn't wholly inside the window.
    OutOfWindow = 7,
    /// A store touches the read-only beginning of the window, or the range that two plugins share.
    ReadOnly = 8,
    /// The text isn't the line of any word.
    NoSuchText = 9,
    /// A lent buffer, trace or list of statuses or links is too short.
    NoRoom = 10,
    /// No word has this instruction; or it was asked about a register, or a byte of one, that there isn't.
    NoSuchInstruction = 11,
    /// The access of one of two plugins is neither wholly in its own range nor, for a load, wholly in the shared one
    /// ([`Shared`](crate::Shared)).
    NotAllowed = 12,
    /// A line of an image isn't one of Intel HEX, stands after the end, or the end is missing.
    Malformed = 13,
    /// The bytes of an image's line don't add up to 0.
    BadChecksum = 14,
    /// A line of an image has a type other than 00, 01 and 04.
    BadRecordType = 15,
    /// The lister is closed, or is said to hold more than three bytes.
    Closed = 16,
    /// The words, the trace or the statuses are too short for the steps, or no run leaves them so.
    BadTrace = 17,
    /// The step asked about lies after the last one.
    AfterEnd = 18,
}

impl Answer {
    /// All answers, in the order of their numbers.
    pub const ALL: &'static [Answer] = &[
        Answer::Done,
        Answer::BadWindow,
        Answer::NotInSet,
        Answer::Undefined,
        Answer::Unpredictable,
        Answer::TaintedAddress,
        Answer::Misaligned,
        Answer::OutOfWindow,
        Answer::ReadOnly,
        Answer::NoSuchText,
        Answer::NoRoom,
        Answer::NoSuchInstruction,
        Answer::NotAllowed,
        Answer::Malformed,
        Answer::BadChecksum,
        Answer::BadRecordType,
        Answer::Closed,
        Answer::BadTrace,
        Answer::AfterEnd,
    ];

    /// The answer of each number up to the largest.
    const BY_NUMBER: [Option<Answer>; Answer::AfterEnd as usize + 1] = {
        let mut table = [None; Answer::AfterEnd as usize + 1];
        let mut place = 0;
        while place < Answer::ALL.len() {
            table[Answer::ALL[place] as usize] = Some(Answer::ALL[place]);
            place += 1;
        }
        table
    };

    /// The number in documents 01 and 02.
    pub const fn number(self) -> u8 {
        self as u8
    }

    /// Whether this is any answer but [`Answer::Done`].
    pub const fn is_refusal(self) -> bool {
        !matches!(self, Answer::Done)
    }

    /// The answer of a number that the library gave. It is proved to give no others.
    pub(crate) fn of_reply(number: u64) -> Answer {
        Answer::try_from(number).expect("libmilestarling.a is of another version: it gave an unknown answer")
    }
}

/// What is wrong, in the words that `docs/ANSWERS.md` and the C header have too.
impl fmt::Display for Answer {
    fn fmt(&self, f: &mut fmt::Formatter<'_>) -> fmt::Result {
        f.pad(match self {
            Answer::Done => "done",
            Answer::BadWindow => "the memory window, the number of its taint bytes or the program counter is wrong",
            Answer::NotInSet => "the word is no load or store that this machine takes",
            Answer::Undefined => "the word is an undefined load or store",
            Answer::Unpredictable => "the word names the same register twice where it must not",
            Answer::TaintedAddress => "the address would come from a secret value",
            Answer::Misaligned => {
                "SP as the base isn't a multiple of 16, the exclusive access's address isn't a multiple of its size, \
                 or the ordered access crosses the border of a 16-byte block"
            }
            Answer::OutOfWindow => "the access isn't wholly inside the memory window",
            Answer::ReadOnly => "the store touches read-only memory",
            Answer::NoSuchText => "the text isn't the line of any load or store",
            Answer::NoRoom => "the buffer, the trace or the list of statuses or links lent is too short",
            Answer::NoSuchInstruction => "no word has this instruction, or there is no such register or byte",
            Answer::NotAllowed => "the access is neither in the plugin's own range nor, for a load, in the shared one",
            Answer::Malformed => "the line isn't one of Intel HEX, stands after the end, or the end is missing",
            Answer::BadChecksum => "the checksum of the line is wrong",
            Answer::BadRecordType => "the type of the line isn't 00, 01 or 04",
            Answer::Closed => "the lister is closed, or is said to hold more than three bytes",
            Answer::BadTrace => {
                "the words, the trace or the statuses are too short for the steps, or no run leaves them so"
            }
            Answer::AfterEnd => "the step asked about lies after the last one",
        })
    }
}

/// A number that is no answer's.
#[derive(Clone, Copy, Debug, PartialEq, Eq)]
pub struct UnknownAnswer(
    /// The number.
    pub u64,
);

impl fmt::Display for UnknownAnswer {
    fn fmt(&self, f: &mut fmt::Formatter<'_>) -> fmt::Result {
        write!(f, "{} is no answer's number", self.0)
    }
}

impl Error for UnknownAnswer {}

impl TryFrom<u64> for Answer {
    type Error = UnknownAnswer;

    fn try_from(number: u64) -> Result<Answer, UnknownAnswer> {
        let place = usize::try_from(number).ok();
        place.and_then(|place| Answer::BY_NUMBER.get(place).copied().flatten()).ok_or(UnknownAnswer(number))
    }
}

impl From<Answer> for u8 {
    fn from(answer: Answer) -> u8 {
        answer.number()
    }
}

impl From<Answer> for u64 {
    fn from(answer: Answer) -> u64 {
        answer.number().into()
    }
}

/// An answer other than [`Answer::Done`], as an error.
///
/// It names the word that was refused, where a word was. Of a run it says how many steps were done before it: their
/// effects stay, and the refused step has none.
///
/// ```
/// use milestarling::{Answer, Memory, Session, Window};
///
/// let mut memory = Memory::zeroed(Window::at(4096), 16);
/// let refusal = Session::new().step(&mut memory, 0xf9400020).unwrap_err(); // ldr x0, [x1], with 0 in x1
/// assert_eq!(refusal.answer(), Answer::OutOfWindow);
/// assert_eq!(refusal.address(), Some(0));
/// assert_eq!(refusal.word(), Some(0xf9400020));
/// assert_eq!(
///     refusal.to_string(),
///     "refused (7): the access isn't wholly inside the memory window, at address 0x0, by f9400020, `ldr x0, [x1]`",
/// );
/// ```
#[derive(Clone, Copy, PartialEq, Eq)]
pub struct Refusal {
    answer: Answer,
    steps: usize,
    address: u64,
    word: Option<u32>,
}

impl Refusal {
    /// Of a call that does no steps and has no word.
    pub(crate) fn new(answer: Answer) -> Refusal {
        Refusal::after(0, answer, 0)
    }

    pub(crate) fn after(steps: usize, answer: Answer, address: u64) -> Refusal {
        debug_assert!(answer.is_refusal());
        Refusal { answer, steps, address, word: None }
    }

    /// This refusal of a word, unless it is one of the whole call.
    pub(crate) fn of_word(self, word: Option<&u32>) -> Refusal {
        let of_call = matches!(self.answer, Answer::BadWindow | Answer::NoRoom);
        Refusal { word: word.copied().filter(|_| !of_call), ..self }
    }

    /// The word that was refused; none where no word was, as with a text, a window or a buffer.
    pub fn word(&self) -> Option<u32> {
        self.word
    }

    /// Why.
    pub fn answer(&self) -> Answer {
        self.answer
    }

    /// The steps of the run that were done before it.
    pub fn steps(&self) -> usize {
        self.steps
    }

    /// The address of the access that was refused, or SP where its alignment was, for the answers that come after an
    /// address is known.
    pub fn address(&self) -> Option<u64> {
        let known = [Answer::Misaligned, Answer::OutOfWindow, Answer::ReadOnly, Answer::NotAllowed];
        known.contains(&self.answer).then_some(self.address)
    }
}

impl Refusal {
    /// The address of an access that isn't inside the window.
    pub(crate) fn outside(&self) -> Option<u64> {
        (self.answer == Answer::OutOfWindow).then_some(self.address)
    }
}

impl fmt::Display for Refusal {
    fn fmt(&self, f: &mut fmt::Formatter<'_>) -> fmt::Result {
        write!(f, "refused ({}): {}", self.answer.number(), self.answer)?;
        if let Some(address) = self.address() {
            write!(f, ", at address {address:#x}")?;
        }
        if let Some(word) = self.word {
            write!(f, ", by {word:08x}")?;
            if let Ok(instruction) = Instruction::new(word) {
                write!(f, ", `{instruction}`")?;
            }
        }
        match self.steps {
            0 => Ok(()),
            1 => f.write_str(", after 1 step"),
            steps => write!(f, ", after {steps} steps"),
        }
    }
}

impl Error for Refusal {}
