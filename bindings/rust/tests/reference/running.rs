//! "Memory, marks and the trace": the step and the run.

use super::decoding::{decode, Family, Instruction, Operation};
use super::*;

/// Which bytes of a register are marked, the lowest first.
pub type Marks = [bool; 8];

/// The same of a vector register.
pub type VectorMarks = [bool; 16];

const UNMARKED: Marks = [false; 8];

/// What a monitor is when it opens.
const OPEN: Monitor = Monitor { address: 0, size: 0 };

/// Where the last load-exclusive was, and how many bytes it had; open where that is 0.
#[derive(Clone, Copy, Debug, PartialEq, Eq)]
pub struct Monitor {
    pub address: u64,
    pub size: u64,
}

/// The register file, of which number 31 is SP, the monitor, and the vector registers, of which 31 is one like any other.
#[derive(Clone, Debug, PartialEq, Eq)]
pub struct State {
    pub registers: [u64; 32],
    pub taints: [Marks; 32],
    pub pc: u64,
    pub monitor: Monitor,
    pub vectors: [u128; 32],
    pub vector_taints: [VectorMarks; 32],
}

#[derive(Clone, Copy, Debug, PartialEq, Eq)]
pub struct Window {
    pub origin: u64,
    pub readonly: u64,
}

/// An address, and how many bytes from there on.
#[derive(Clone, Copy, Debug, PartialEq, Eq)]
pub struct Range {
    pub address: u64,
    pub length: u64,
}

/// CR 11: what both plugins may load, and the private ranges of the one whose turn it is and of the other.
#[derive(Clone, Copy, Debug, PartialEq, Eq)]
pub struct Ranges {
    pub shared: Range,
    pub own: Range,
    pub other: Range,
}

impl Range {
    /// The first address, and the one behind the last.
    fn ends(self) -> (u128, u128) {
        (self.address.into(), self.address as u128 + self.length as u128)
    }

    /// Whether some byte is in both.
    pub fn shares_with(self, other: Range) -> bool {
        let ((first, end), (other_first, other_end)) = (self.ends(), other.ends());
        first.max(other_first) < end.min(other_end)
    }

    /// "Wholly inside", as answer 7 counts.
    pub fn lies_in(self, other: Range) -> bool {
        let ((first, end), (other_first, other_end)) = (self.ends(), other.ends());
        other_first <= first && end <= other_end
    }
}

impl Ranges {
    /// Answer 1: "two ranges share a byte or one, empty too, isn't inside the window as 7 counts".
    fn are_bad(self, origin: u64, len: usize) -> bool {
        let Ranges { shared, own, other } = self;
        let window = Range { address: origin, length: len as u64 };
        let apart = !shared.shares_with(own) && !shared.shares_with(other) && !own.shares_with(other);
        !apart || [shared, own, other].iter().any(|range| !range.lies_in(window))
    }

    /// "8 for a store touching the shared range; 12 for any other access not allowed."
    fn admit(self, is_store: bool, access: Range) -> u8 {
        if is_store && access.shares_with(self.shared) {
            READ_ONLY
        } else if access.lies_in(self.own) || !is_store && access.lies_in(self.shared) {
            DONE
        } else {
            NOT_ALLOWED
        }
    }
}

/// What the last step tried says, and how many were done before it or with it.
#[derive(Clone, Copy, Debug, PartialEq, Eq)]
pub struct Outcome {
    pub steps: u64,
    pub answer: u8,
    pub code: u64,
    pub address: u64,
}

struct Refused {
    answer: u8,
    address: u64,
}

impl State {
    /// A register in a place where 31 is zero.
    fn data(&self, number: u8) -> (u64, Marks) {
        match number {
            31 => (0, UNMARKED),
            _ => (self.registers[number as usize], self.taints[number as usize]),
        }
    }

    fn set_data(&mut self, number: u8, value: u64, marks: Marks) {
        if number != 31 {
            self.registers[number as usize] = value;
            self.taints[number as usize] = marks;
        }
    }

    /// Stores the low bytes of a register, with their marks.
    fn store(&self, instruction: &Instruction, number: u8, bytes: &mut [u8], taints: &mut [u8]) {
        let width = bytes.len();
        if instruction.vector {
            bytes.copy_from_slice(&self.vectors[number as usize].to_le_bytes()[..width]);
            let marks = self.vector_taints[number as usize];
            taints.iter_mut().zip(marks).for_each(|(taint, mark)| *taint = mark as u8);
        } else {
            let (value, marks) = self.data(number);
            bytes.copy_from_slice(&value.to_le_bytes()[..width]);
            taints.iter_mut().zip(marks).for_each(|(taint, mark)| *taint = mark as u8);
        }
    }

    /// Loads a register from its part of a load: "a load clears what it doesn't fill".
    fn load(&mut self, instruction: &Instruction, number: u8, bytes: &[u8], taints: &[u8]) {
        if instruction.vector {
            let mut whole = [0; 16];
            whole[..bytes.len()].copy_from_slice(bytes);
            self.vectors[number as usize] = u128::from_le_bytes(whole);
            self.vector_taints[number as usize] =
                std::array::from_fn(|byte| taints.get(byte).is_some_and(|&taint| taint != 0));
        } else {
            self.set_data(number, joined(instruction, bytes), copied(instruction, taints));
        }
    }
}

fn is_bad(window: Window, len: usize, taints: usize, pc: u64) -> bool {
    window.origin as u128 + len as u128 > 1 << 64 || window.readonly > len as u64 || taints != len || pc & 3 != 0
}

fn index(instruction: &Instruction, value: u64) -> u64 {
    let taken = match instruction.option {
        0b010 => value as u32 as u64,
        0b110 => value as i32 as u64,
        _ => value,
    };
    if instruction.shifted {
        taken << instruction.size
    } else {
        taken
    }
}

/// The value that a register gets from the bytes of its part of a load.
fn joined(instruction: &Instruction, bytes: &[u8]) -> u64 {
    let mut whole = [0; 8];
    whole[..bytes.len()].copy_from_slice(bytes);
    let value = u64::from_le_bytes(whole);
    let above = 64 - 8 * bytes.len() as u32;
    let signed = ((value << above) as i64 >> above) as u64;
    match instruction.operation {
        Operation::LoadSigned64 => signed,
        Operation::LoadSigned32 => signed as u32 as u64,
        _ => value,
    }
}

/// The marks that a register gets from the taint of its part of a load: a copy of the sign has that of the byte with the sign.
fn copied(instruction: &Instruction, taint: &[u8]) -> Marks {
    let top = taint.len() - 1;
    let extent = match instruction.operation {
        Operation::LoadSigned64 => 8,
        Operation::LoadSigned32 => 4,
        _ => taint.len(),
    };
    std::array::from_fn(|byte| byte < extent && taint[byte.min(top)] != 0)
}

/// Whether the part of an index that makes an address is marked: options 010 and 110 take its low half.
fn is_index_marked(instruction: &Instruction, marks: Marks) -> bool {
    let used = if matches!(instruction.option, 0b010 | 0b110) { 4 } else { 8 };
    marks[..used].contains(&true)
}

/// Answer 6: an exclusive goes by its size, and what acquires or releases by the block of 16 bytes.
pub fn is_misaligned(instruction: &Instruction, address: u64, length: usize) -> bool {
    match instruction.family {
        Family::Exclusive { monitored: true, .. } => address % length as u64 != 0,
        Family::Ordered | Family::Exclusive { .. } => address % 16 + length as u64 > 16,
        _ => false,
    }
}

/// A step whose window and PC were tested: the code, the address and the status. An access inside the window is then admitted or
/// gets the answer that it is refused with.
fn walk(
    word: u32,
    state: &mut State,
    origin: u64,
    admit: impl Fn(bool, Range) -> u8,
    memory: &mut [u8],
    taint: &mut [u8],
) -> Result<(u64, u64, u8), Refused> {
    let early = |answer| Refused { answer, address: 0 };
    let instruction = decode(word).map_err(early)?;
    if instruction.operation == Operation::Prefetch {
        state.pc = state.pc.wrapping_add(4);
        return Ok((0, 0, 0));
    }
    if instruction.is_unpredictable() {
        return Err(early(UNPREDICTABLE));
    }
    let (base, address) = if instruction.family == Family::Literal {
        (0, state.pc.wrapping_add(instruction.offset as u64))
    } else {
        let (base, shift) = (instruction.rn as usize, state.data(instruction.rm));
        let has_index = instruction.family == Family::Register;
        if state.taints[base].contains(&true) || has_index && is_index_marked(&instruction, shift.1) {
            return Err(early(TAINTED_ADDRESS));
        }
        let is_stack = base == 31;
        let base = state.registers[base];
        // CR 1: "SP itself, before any offset".
        if is_stack && base & 0xf != 0 {
            return Err(Refused { answer: MISALIGNED, address: base });
        }
        if has_index {
            (base, base.wrapping_add(index(&instruction, shift.0)))
        } else if instruction.is_post() {
            (base, base)
        } else {
            (base, base.wrapping_add(instruction.offset as u64))
        }
    };
    let width = 1usize << instruction.size;
    let length = if instruction.is_pair() { 2 * width } else { width };
    let refused = |answer| Err(Refused { answer, address });
    if is_misaligned(&instruction, address, length) {
        return refused(MISALIGNED);
    }
    let end = origin as u128 + memory.len() as u128;
    if address < origin || address as u128 + length as u128 > end {
        return refused(OUT_OF_WINDOW);
    }
    let answer = admit(instruction.is_store(), Range { address, length: length as u64 });
    if answer != DONE {
        return refused(answer);
    }
    let at = address - origin;
    // Nothing is refused from here on, so that nothing was changed by a refused step.
    let asked = Monitor { address, size: length as u64 };
    let status = (instruction.has_status() && state.monitor != asked) as u8;
    if instruction.is_monitored() {
        state.monitor = if instruction.is_store() { OPEN } else { asked };
    }
    let at = at as usize;
    let memory = &mut memory[at..at + length];
    let taint = &mut taint[at..at + length];
    let moved = [instruction.rt, instruction.rt2];
    let parts = memory.chunks_exact_mut(width).zip(taint.chunks_exact_mut(width)).zip(moved);
    if status == 1 {
        // "Stores nothing, marks included."
    } else if instruction.is_store() {
        parts.for_each(|((bytes, taints), register)| state.store(&instruction, register, bytes, taints));
    } else {
        parts.for_each(|((bytes, taints), register)| state.load(&instruction, register, bytes, taints));
    }
    if instruction.writes_back() {
        state.registers[instruction.rn as usize] = base.wrapping_add(instruction.offset as u64);
        state.taints[instruction.rn as usize] = UNMARKED;
    }
    if instruction.has_status() {
        state.set_data(instruction.rs, status as u64, UNMARKED);
    }
    state.pc = state.pc.wrapping_add(4);
    let direction = if instruction.is_store() { 64 } else { 0 };
    Ok((length as u64 + direction, address, status))
}

/// A run. Everything lent is changed in place.
pub fn run(
    words: &[u32],
    state: &mut State,
    window: Window,
    memory: &mut [u8],
    taint: &mut [u8],
    trace: &mut [u64],
    statuses: &mut [u8],
) -> Outcome {
    let is_bad = is_bad(window, memory.len(), taint.len(), state.pc);
    let admit = |is_store: bool, access: Range| {
        let is_readonly = is_store && access.address - window.origin < window.readonly;
        if is_readonly {
            READ_ONLY
        } else {
            DONE
        }
    };
    steps(words, state, window.origin, is_bad, admit, memory, taint, trace, statuses)
}

/// CR 11: one turn of a plugin, a run by its ranges. Everything lent is changed in place.
#[allow(clippy::too_many_arguments)]
pub fn turn(
    words: &[u32],
    state: &mut State,
    origin: u64,
    ranges: Ranges,
    memory: &mut [u8],
    taint: &mut [u8],
    trace: &mut [u64],
    statuses: &mut [u8],
) -> Outcome {
    let whole = Window { origin, readonly: 0 };
    let is_bad = is_bad(whole, memory.len(), taint.len(), state.pc) || ranges.are_bad(origin, memory.len());
    let admit = |is_store, access| ranges.admit(is_store, access);
    steps(words, state, origin, is_bad, admit, memory, taint, trace, statuses)
}

/// The steps of a run, once it is known whether it gets answer 1.
#[allow(clippy::too_many_arguments)]
fn steps(
    words: &[u32],
    state: &mut State,
    origin: u64,
    is_bad: bool,
    admit: impl Fn(bool, Range) -> u8,
    memory: &mut [u8],
    taint: &mut [u8],
    trace: &mut [u64],
    statuses: &mut [u8],
) -> Outcome {
    let mut outcome = Outcome { steps: 0, answer: DONE, code: 0, address: 0 };
    if is_bad {
        outcome.answer = BAD_WINDOW;
        return outcome;
    }
    if trace.len() < 2 * words.len() || statuses.len() < words.len() {
        outcome.answer = NO_ROOM;
        return outcome;
    }
    for ((&word, row), place) in words.iter().zip(trace.chunks_exact_mut(2)).zip(statuses) {
        match walk(word, state, origin, &admit, memory, taint) {
            Ok((code, address, status)) => {
                row.copy_from_slice(&[code, address]);
                *place = status;
                outcome.steps += 1;
                (outcome.code, outcome.address) = (code, address);
            }
            Err(refused) => {
                outcome.answer = refused.answer;
                (outcome.code, outcome.address) = (0, refused.address);
                return outcome;
            }
        }
    }
    outcome
}
