//! The library's functions as they are: slices and numbers in, numbers out.
//!
//! For hosts that keep sessions, trace and buffers in a layout of their own. Answers are the numbers of documents
//! 01 and 02; [`Answer::try_from`](crate::Answer) names them. No function here has a condition that its caller must meet:
//! what C's pointers have to be, a slice is.
//!
//! ```
//! let mut buffer = [0; 32];
//! let reply = milestarling::raw::text(0xf9400420, &mut buffer);
//! assert_eq!(reply.answer, 0);
//! assert_eq!(&buffer[..reply.length as usize], b"ldr x0, [x1, #8]");
//! ```

use crate::{ffi, Ranges, Taint};

/// A session's record, which a host keeps, hands to [`run`] by value, and lends to [`step`]. The default is a new one.
///
/// Any bits in it have a meaning: every record is one that a call takes, and gets an answer.
/// [`Session`](crate::Session) is the same with names, and says what the monitor is.
#[repr(C)]
#[derive(Clone, Copy, Default, PartialEq, Eq, Hash)]
pub struct SessionRecord {
    /// The values of x0 to x30 and SP.
    pub value: [u64; 32],
    /// The taints of their bytes. Those that a step sets become 0 or 1 each, and all others keep their bits.
    pub value_taint: [Taint; 32],
    /// The program counter.
    pub pc: u64,
    /// The address of the monitor.
    pub monitor_address: u64,
    /// How many bytes the monitor has; it is open where they are 0.
    pub monitor_size: u64,
}

/// A session's vector registers, which a host keeps beside its record and lends to [`run`] and [`step`]. The default is a new
/// one: all 0, and nothing tainted. [`Vectors`](crate::Vectors) is the same with names.
#[repr(C)]
#[derive(Clone, Copy, Default, PartialEq, Eq, Hash)]
pub struct VectorsRecord {
    /// The values of v0 to v31 by their halves, the low one first.
    pub value: [[u64; 2]; 32],
    /// The taints of their bytes, likewise. Those that a step sets become 0 or 1 each, and all others keep their bits.
    pub taint: [[Taint; 2]; 32],
}

/// One vector register, by its halves.
#[must_use]
#[repr(C)]
#[derive(Clone, Copy, Default, PartialEq, Eq)]
pub struct VectorReply {
    /// The low half's value.
    pub low: u64,
    /// The high half's.
    pub high: u64,
    /// The taints of the low half's bytes.
    pub taint_low: Taint,
    /// Those of the high half's.
    pub taint_high: Taint,
}

/// What a run returns beside what it leaves in the slices.
#[must_use]
#[repr(C)]
#[derive(Clone, Copy, Debug, Default, PartialEq, Eq)]
pub struct RunReply {
    /// The record after the steps done; with answers 1 and 10 the one that was handed in.
    pub session: SessionRecord,
    /// How many steps were done.
    pub steps: u64,
    /// The answer of the last step tried, or of the run where it wasn't begun.
    pub answer: u64,
    /// The bytes touched by the last step, and 64 more for a store; 0 for a refusal or a prefetch.
    pub code: u64,
    /// The address of the last access tried; 0 for a prefetch and for answers 1 to 5 and 10.
    pub address: u64,
}

/// What a step returns beside what it leaves in the record and in the slices.
#[must_use]
#[repr(C)]
#[derive(Clone, Copy, Debug, Default, PartialEq, Eq)]
pub struct StepReply {
    /// The answer.
    pub answer: u64,
    /// The bytes touched, and 64 more for a store; 0 for a refusal or a prefetch.
    pub code: u64,
    /// The address of the access; 0 for a prefetch and for answers 1 to 5.
    pub address: u64,
    /// 1 for a store-exclusive that failed, and else 0.
    pub status: u64,
}

/// What writing a text or a listing returns.
#[must_use]
#[repr(C)]
#[derive(Clone, Copy, Debug, Default, PartialEq, Eq)]
pub struct TextReply {
    /// The answer.
    pub answer: u64,
    /// How many bytes were written; 0 for a refusal.
    pub length: u64,
}

/// What reading a line returns.
#[must_use]
#[repr(C)]
#[derive(Clone, Copy, Default, PartialEq, Eq)]
pub struct WordReply {
    /// The answer.
    pub answer: u64,
    /// The word; 0 for a refusal.
    pub word: u64,
}

/// What rescuing a listing returns.
#[must_use]
#[repr(C)]
#[derive(Clone, Copy, Debug, Default, PartialEq, Eq)]
pub struct RescueReply {
    /// The answer.
    pub answer: u64,
    /// How many bytes were put out; 0 for a refusal.
    pub length: u64,
    /// How many bytes the report has; 0 for a refusal.
    pub report_length: u64,
}

/// A lister of a stream, which a host hands on from call to call. The default is a new one.
///
/// Every lister is one that a call takes, and gets an answer.
#[repr(C)]
#[derive(Clone, Copy, Debug, Default, PartialEq, Eq, Hash)]
pub struct Lister {
    /// The first byte behind the last whole word, where there is one.
    pub first: u8,
    /// The second.
    pub second: u8,
    /// The third.
    pub third: u8,
    /// How many of the three count. More than 3 are refused with 16.
    pub count: u8,
    /// Whether the lister is closed, which any number but 0 says.
    pub closed: u8,
}

/// What a call of a lister returns.
#[must_use]
#[repr(C)]
#[derive(Clone, Copy, Debug, Default, PartialEq, Eq)]
pub struct ListerReply {
    /// The lister after the call; for a refusal the one that was handed in.
    pub lister: Lister,
    /// The answer: 0, 16 or 10, and 16 before 10.
    pub answer: u64,
    /// How many bytes were written; 0 for a refusal.
    pub length: u64,
}

/// What importing a memory image returns.
#[must_use]
#[repr(C)]
#[derive(Clone, Copy, Debug, Default, PartialEq, Eq)]
pub struct ImportReply {
    /// The answer: 0, 1, 7, 13, 14 or 15.
    pub answer: u64,
    /// The number of the line that is refused, from 1; 0 where no line is.
    pub line: u64,
}

/// What asking why a byte is tainted returns beside the links.
#[must_use]
#[repr(C)]
#[derive(Clone, Copy, Debug, Default, PartialEq, Eq)]
pub struct WhyReply {
    /// The answer: 0, 1, 7, 11, 17, 18 or 10, and the first of these that holds.
    pub answer: u64,
    /// How many links were written; 0 for a refusal, and with answer 0 where the byte isn't tainted.
    pub links: u64,
}

/// The version of the library that is linked, as one number: 1,002,003 would be 1.2.3.
///
/// This package's `build.rs` refuses a library that lacks what the package needs.
#[inline]
#[must_use]
pub fn version() -> u32 {
    ffi::version()
}

/// Runs a list of words.
///
/// `session` is the record to begin with, and the reply has the one after the steps done. `vectors` and `vector_taint` are the
/// vector registers and their taints, each by its low half and its high one. `memory` begins at the address `origin`, and its
/// first `readonly` bytes can't be stored to. `taint` has a byte for each of memory's. For each step done `trace` gets two
/// numbers, its code and its address, and `statuses` a byte: 1 for a store-exclusive that has failed, and else 0. A trace or a
/// list of statuses too short for all words is refused with 10, and longer ones keep their rest. A run that isn't begun
/// (answers 1 and 10) changes nothing.
///
/// ```
/// use milestarling::raw::{run, SessionRecord, VectorsRecord};
///
/// let mut session = SessionRecord::default();
/// let VectorsRecord { mut value, taint: mut value_taint } = VectorsRecord::default();
/// let (mut memory, mut taint, mut trace, mut statuses) = ([7; 16], [0; 16], [0; 4], [9; 2]);
/// session.value[1] = 4096;
/// let words = [0xf9400420, 0xfd400422]; // ldr x0, [x1, #8]; ldr d2, [x1, #8]
/// let reply = run(
///     &words, session, &mut value, &mut value_taint, 4096, 0, &mut memory, &mut taint, &mut trace, &mut statuses,
/// );
/// assert_eq!((reply.steps, reply.answer, reply.code, reply.address), (2, 0, 8, 4104));
/// assert_eq!((reply.session.value[0], reply.session.pc), (0x0707_0707_0707_0707, 8));
/// assert_eq!(value[2], [0x0707_0707_0707_0707, 0]);
/// assert_eq!((trace, statuses), ([8, 4104, 8, 4104], [0, 0]));
/// ```
#[allow(clippy::too_many_arguments)]
#[inline]
pub fn run(
    words: &[u32],
    session: SessionRecord,
    vectors: &mut [[u64; 2]; 32],
    vector_taint: &mut [[Taint; 2]; 32],
    origin: u64,
    readonly: u64,
    memory: &mut [u8],
    taint: &mut [u8],
    trace: &mut [u64],
    statuses: &mut [u8],
) -> RunReply {
    ffi::run(words, session, vectors, vector_taint, origin, readonly, memory, taint, trace, statuses)
}

/// Runs a list of words as one turn of a plugin that shares memory with another.
///
/// All is as [`run`] has it, but for what the words may reach: a load lies wholly in `ranges.shared` or wholly in `ranges.own`,
/// and a store wholly in `ranges.own`. Nothing else of memory is read-only. Ranges of which two have a byte in common, or one
/// isn't inside the window, are refused with 1, before 10; `ranges.other` counts for nothing else. A store that touches the shared
/// range is refused with 8, and any other access that isn't allowed with 12. [`Shared`](crate::Shared) keeps the ranges of both
/// plugins, and hands each turn its own.
///
/// ```
/// use milestarling::raw::{turn, SessionRecord, VectorsRecord};
/// use milestarling::{Range, Ranges};
///
/// let mut session = SessionRecord::default();
/// let VectorsRecord { mut value, taint: mut value_taint } = VectorsRecord::default();
/// let (mut memory, mut taint, mut trace, mut statuses) = ([7; 24], [0; 24], [0; 4], [9; 2]);
/// let ranges = Ranges { shared: Range::new(4096, 8), own: Range::new(4104, 8), other: Range::new(4112, 8) };
/// session.value[1] = 4096;
/// let words = [0xf9400020, 0xf9400820]; // ldr x0, [x1]; ldr x0, [x1, #16]
/// let reply = turn(
///     &words, session, &mut value, &mut value_taint, 4096, ranges, &mut memory, &mut taint, &mut trace, &mut statuses,
/// );
/// assert_eq!((reply.steps, reply.answer, reply.code, reply.address), (1, 12, 0, 4112));
/// assert_eq!((trace, statuses), ([8, 4096, 0, 0], [0, 9]));
/// ```
#[allow(clippy::too_many_arguments)]
#[inline]
pub fn turn(
    words: &[u32],
    session: SessionRecord,
    vectors: &mut [[u64; 2]; 32],
    vector_taint: &mut [[Taint; 2]; 32],
    origin: u64,
    ranges: Ranges,
    memory: &mut [u8],
    taint: &mut [u8],
    trace: &mut [u64],
    statuses: &mut [u8],
) -> RunReply {
    ffi::turn(words, session, vectors, vector_taint, origin, ranges, memory, taint, trace, statuses)
}

/// Does one word on a session's record, on vector registers and in memory as [`run`] has them. A refused word (answers 1 to 8)
/// changes nothing.
///
/// ```
/// use milestarling::raw::{step, SessionRecord, VectorsRecord};
///
/// let (mut session, mut vectors) = (SessionRecord::default(), VectorsRecord::default());
/// let (mut memory, mut taint) = ([7; 16], [0; 16]);
/// session.value[1] = 4096;
/// let word = 0xf9400420; // ldr x0, [x1, #8]
/// let reply = step(word, &mut session, &mut vectors.value, &mut vectors.taint, 4096, 0, &mut memory, &mut taint);
/// assert_eq!((reply.answer, reply.code, reply.address), (0, 8, 4104));
/// assert_eq!((session.value[0], session.pc), (0x0707_0707_0707_0707, 4));
/// ```
#[allow(clippy::too_many_arguments)]
#[inline]
pub fn step(
    word: u32,
    session: &mut SessionRecord,
    vectors: &mut [[u64; 2]; 32],
    vector_taint: &mut [[Taint; 2]; 32],
    origin: u64,
    readonly: u64,
    memory: &mut [u8],
    taint: &mut [u8],
) -> StepReply {
    ffi::step(word, session, vectors, vector_taint, origin, readonly, memory, taint)
}

/// Sets x0 to x30 (0 to 30) or SP (31) of a session's record, with its taint. Any other number changes nothing.
#[inline]
pub fn set_register(session: &mut SessionRecord, number: u32, value: u64, taint: Taint) {
    ffi::set_register(session, number, value, taint);
}

/// One of the vector registers, with its taint as it stands there. Any number above 31 reads 0, not tainted.
#[inline]
pub fn vector(number: u32, vectors: &[[u64; 2]; 32], vector_taint: &[[Taint; 2]; 32]) -> VectorReply {
    ffi::vector(number, vectors, vector_taint)
}

/// Sets one of the vector registers, its halves with their taints, the low one first. Any number above 31 changes nothing.
///
/// ```
/// use milestarling::{raw, Taint};
///
/// let mut vectors = raw::VectorsRecord::default();
/// raw::set_vector(&mut vectors.value, &mut vectors.taint, 31, [5, 6], [Taint::NONE, Taint::ALL]);
/// let found = raw::vector(31, &vectors.value, &vectors.taint);
/// assert_eq!((found.low, found.high, found.taint_low, found.taint_high), (5, 6, Taint::NONE, Taint::ALL));
/// assert!(raw::vector(32, &vectors.value, &vectors.taint) == raw::VectorReply::default());
/// ```
#[inline]
pub fn set_vector(
    vectors: &mut [[u64; 2]; 32],
    vector_taint: &mut [[Taint; 2]; 32],
    number: u32,
    halves: [u64; 2],
    taints: [Taint; 2],
) {
    ffi::set_vector(vectors, vector_taint, number, halves, taints);
}

/// A session's record with its monitor open: address and size 0, and all else as it was.
#[inline]
#[must_use]
pub fn opened(session: SessionRecord) -> SessionRecord {
    ffi::opened(session)
}

/// A session's record after another's step that showed this code, address and status: with its monitor open exactly if that
/// step stored a byte that the monitor watches (a code of at least 64, and status 0), and else as it was.
///
/// ```
/// use milestarling::raw::{observed, SessionRecord};
///
/// let session = SessionRecord { monitor_address: 4096, monitor_size: 4, ..SessionRecord::default() };
/// assert_eq!(observed(session, 64 + 1, 4099, 0).monitor_size, 0);
/// assert_eq!(observed(session, 64 + 1, 4100, 0), session);
/// assert_eq!(observed(session, 64 + 4, 4096, 1), session); // a store-exclusive that failed
/// ```
#[inline]
#[must_use]
pub fn observed(session: SessionRecord, code: u64, address: u64, status: u64) -> SessionRecord {
    ffi::observed(session, code, address, status)
}

/// Writes the line of a word to the start of a buffer.
#[inline]
pub fn text(word: u32, buffer: &mut [u8]) -> TextReply {
    ffi::text(word, buffer)
}

/// Reads the word whose line a text is.
///
/// ```
/// let reply = milestarling::raw::word(b"ldr x0, [x1, #8]");
/// assert_eq!((reply.answer, reply.word), (0, 0xf9400420));
/// ```
#[inline]
pub fn word(text: &[u8]) -> WordReply {
    ffi::word(text)
}

/// Writes the listing of bytes to the start of a buffer.
///
/// ```
/// let mut output = [0; 64];
/// let reply = milestarling::raw::list(&[0x20, 0x04, 0x40, 0xf9, 0xff], &mut output);
/// let listing = "f9400420\tldr x0, [x1, #8]\t0\nshort\t-\t1\n";
/// assert_eq!(&output[..reply.length as usize], listing.as_bytes());
/// ```
#[inline]
pub fn list(bytes: &[u8], output: &mut [u8]) -> TextReply {
    ffi::list(bytes, output)
}

/// Writes the lines of a damaged listing that are kept and restored to the start of a buffer, and a line for each of its
/// lines to the start of a report.
///
/// ```
/// let (mut output, mut report) = ([0; 64], [0; 64]);
/// let reply = milestarling::raw::rescue(b"9400420\tldr x0, [x1, #8]\t0\n", &mut output, &mut report);
/// assert_eq!(&output[..reply.length as usize], b"f9400420\tldr x0, [x1, #8]\t0\n");
/// assert_eq!(&report[..reply.report_length as usize], b"1\trestored\n");
/// ```
#[inline]
pub fn rescue(input: &[u8], output: &mut [u8], report: &mut [u8]) -> RescueReply {
    ffi::rescue(input, output, report)
}

/// Writes the lines of the words that are whole with one more fragment of a stream to the start of a buffer.
///
/// ```
/// use milestarling::raw::{lister_push, Lister};
///
/// let mut output = [0; 64];
/// let reply = lister_push(Lister::default(), &[0x20, 0x04, 0x40], &mut output);
/// assert_eq!((reply.lister.count, reply.length), (3, 0));
/// let reply = lister_push(reply.lister, &[0xf9, 0xff], &mut output);
/// assert_eq!(&output[..reply.length as usize], b"f9400420\tldr x0, [x1, #8]\t0\n");
/// assert_eq!((reply.lister.first, reply.lister.count), (0xff, 1));
/// ```
#[inline]
pub fn lister_push(lister: Lister, fragment: &[u8], output: &mut [u8]) -> ListerReply {
    ffi::lister_push(lister, fragment, output)
}

/// Writes the line of the bytes over at the end of a stream to the start of a buffer, and closes the lister.
#[inline]
pub fn lister_close(lister: Lister, output: &mut [u8]) -> ListerReply {
    ffi::lister_close(lister, output)
}

/// The numbers of an instruction: what the library knows of an allocated word, so that nobody decodes it again.
///
/// A field that the family hasn't got is 0. Registers are 0 to 31, where 31 is SP as the base, V31 as a vector register, and
/// the zero register elsewhere. [`Family`](crate::Family), [`Operation`](crate::Operation) and others are names for the numbers.
///
/// ```
/// use milestarling::{Instruction, Numbers};
///
/// # fn main() -> Result<(), milestarling::Refusal> {
/// let push: Instruction = "stp x29, x30, [sp, #-16]!".parse()?;
/// let numbers = push.numbers();
/// assert_eq!((numbers.family, numbers.direction, numbers.bytes), (2, Numbers::STORE, 16));
/// assert_eq!((numbers.target, numbers.second, numbers.base, numbers.offset), (29, 30, 31, -16));
///
/// let next = Numbers { offset: -32, ..numbers }.encode()?;
/// assert_eq!(next.to_string(), "stp x29, x30, [sp, #-32]!");
/// assert!(Numbers { bytes: 8, ..numbers }.encode().is_err());
///
/// let copy = "ldp q0, q1, [x1]".parse::<Instruction>()?.numbers();
/// assert_eq!((copy.operation, copy.direction, copy.bytes), (0b1_10_1, Numbers::LOAD, 32));
/// # Ok(())
/// # }
/// ```
#[repr(C)]
#[derive(Clone, Copy, Debug, Default, PartialEq, Eq, Hash)]
pub struct Numbers {
    /// 1 to 9 in the order of document 01's table: literal, pair, ordered, unscaled, post-index, pre-index, register,
    /// unsigned, and 02's exclusive and acquire/release forms. 0 where there is no instruction.
    pub family: u32,
    /// Size and opc of the word side by side; of a literal its opc, of a pair opc and L; and above them bit 26, which is set
    /// for vector registers. Of the ninth family size, bit 23, L and bit 15.
    pub operation: u32,
    /// [`Numbers::LOAD`], [`Numbers::STORE`], or 0 for a prefetch.
    pub direction: u32,
    /// All that the access moves, both registers of a pair together, up to 32; 0 for a prefetch.
    pub bytes: u32,
    /// Rt, or the hint of a prefetch.
    pub target: u32,
    /// Rt2 of a pair.
    pub second: u32,
    /// Rn.
    pub base: u32,
    /// Rm of the register family.
    pub index: u32,
    /// How it is extended: 2 for uxtw, 3 for lsl, 6 for sxtw, 7 for sxtx.
    pub option: u32,
    /// 1 where it is shifted by the size.
    pub scaled: u32,
    /// The mode of a pair: 0 no-allocate, 1 post, 2 offset, 3 pre.
    pub mode: u32,
    /// Rs of a store-exclusive.
    pub status: u32,
    /// In bytes.
    pub offset: i64,
}

/// What decoding a word returns.
#[must_use]
#[repr(C)]
#[derive(Clone, Copy, Debug, Default, PartialEq, Eq)]
pub struct DecodeReply {
    /// The numbers; zeros for a refusal.
    pub numbers: Numbers,
    /// The answer: 0, 2 or 3.
    pub answer: u64,
}

/// The answer that depends on a word alone: 0, 2, 3 or 4.
#[inline]
#[must_use]
pub fn classify(word: u32) -> u64 {
    ffi::classify(word)
}

/// Whether a word touches memory, 1 or 0: [`touches_memory`](crate::touches_memory) says it without a call.
#[inline]
#[must_use]
pub fn touches_memory(word: u32) -> u64 {
    ffi::touches_memory(word)
}

/// The numbers of a word.
#[inline]
pub fn decode(word: u32) -> DecodeReply {
    ffi::decode(word)
}

/// The word that has these numbers, or 11 where none has. Every field counts.
#[inline]
pub fn encode(numbers: Numbers) -> WordReply {
    ffi::encode(numbers)
}

/// Why a byte is tainted just before a step of a run: the links of its way back to a starting taint, the latest first.
///
/// `words`, `trace`, `statuses` and `steps` are what [`run`] got, wrote and returned. `register_taint`, `vector_taint` and
/// `taint` are those of registers, vector registers and memory before it, in which any byte but 0 is a taint; and `origin`,
/// `readonly` and `memory_length` its memory. `step` counts from 0, and the number of steps stands for the end. The byte is one
/// of a register (kind 0, and 31 is SP) or of a vector register (kind 2), by `number` and `byte`, or one of memory (kind 1), by
/// its address in `number`.
///
/// A link is three numbers: the kind; 16 times the register and the byte, or the address; and the step that tainted it plus 1,
/// or 0 for the start. There are never more than `step + 1`. [`Past`](crate::Past) is the same with names, and keeps together
/// what belongs together.
///
/// ```
/// use milestarling::raw::why;
/// use milestarling::Taint;
///
/// let (words, trace, statuses) = ([0x39400002], [1, 4096], [0]); // ldrb w2, [x0]
/// let (registers, vectors, taint) = ([Taint::NONE; 32], [[Taint::NONE; 2]; 32], [1, 0]);
/// let mut links = [9; 6];
/// let reply = why(
///     &words, &trace, &statuses, 1, &registers, &vectors, &taint, 4096, 0, 2, 1, 0, 2, 0, &mut links,
/// );
/// assert_eq!((reply.answer, reply.links), (0, 2));
/// assert_eq!(links, [0, 16 * 2 + 0, 1, 1, 4096, 0]);
/// ```
#[allow(clippy::too_many_arguments)]
#[inline]
pub fn why(
    words: &[u32],
    trace: &[u64],
    statuses: &[u8],
    steps: u64,
    register_taint: &[Taint; 32],
    vector_taint: &[[Taint; 2]; 32],
    taint: &[u8],
    origin: u64,
    readonly: u64,
    memory_length: u64,
    step: u64,
    kind: u64,
    number: u64,
    byte: u64,
    links: &mut [u64],
) -> WhyReply {
    ffi::why(
        words,
        trace,
        statuses,
        steps,
        register_taint,
        vector_taint,
        taint,
        origin,
        readonly,
        memory_length,
        step,
        kind,
        number,
        byte,
        links,
    )
}

/// Reads a memory image in Intel HEX into memory, and takes the taint from each byte that it writes.
///
/// `memory` begins at the address `origin`; its first `readonly` bytes may be filled too. Where the answer isn't 0 nothing is
/// changed. [`Memory::import_hex`](crate::Memory::import_hex) is the same with an error that says what is wrong.
///
/// ```
/// use milestarling::raw::import;
///
/// let (mut memory, mut taint) = ([1; 4], [1; 4]);
/// let reply = import(b":02000100AABB98\n:00000001FF\n", 0, 4, &mut memory, &mut taint);
/// assert_eq!((reply.answer, reply.line), (0, 0));
/// assert_eq!((memory, taint), ([1, 0xaa, 0xbb, 1], [1, 0, 0, 1]));
/// let reply = import(b":02000100AABB98\n:00000001FE\n", 0, 4, &mut memory, &mut taint);
/// assert_eq!((reply.answer, reply.line), (14, 2));
/// ```
#[inline]
pub fn import(text: &[u8], origin: u64, readonly: u64, memory: &mut [u8], taint: &mut [u8]) -> ImportReply {
    ffi::import(text, origin, readonly, memory, taint)
}
