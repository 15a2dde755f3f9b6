//! CR 8, "Why is X3 marked?", with CR 12 and CR 13: every byte's path is carried forwards from the start, step by step, where
//! the library asks its way back from the end.

use super::decoding::{decode, Instruction, Operation};
use super::running::{is_misaligned, Window};
use super::*;
use std::array::from_fn;
use std::rc::Rc;

pub const REGISTER: u64 = 0;
pub const BYTE: u64 = 1;
pub const VECTOR: u64 = 2;

/// What is lent of a run.
#[derive(Clone, Debug)]
pub struct Lent {
    pub words: Vec<u32>,
    pub trace: Vec<u64>,
    pub statuses: Vec<u8>,
    pub steps: u64,
    /// The marks at the start.
    pub registers: [u64; 32],
    pub vectors: [[u64; 2]; 32],
    pub taint: Vec<u8>,
    pub window: Window,
    pub len: u64,
}

/// A question: a kind, and a register with its byte, or an address.
#[derive(Clone, Copy, Debug)]
pub struct Asked {
    pub step: u64,
    pub kind: u64,
    pub number: u64,
    pub byte: u64,
}

/// How a mark came to where it is; none where there is none.
type Path = Option<Rc<Link>>;

struct Link {
    numbers: [u64; 3],
    earlier: Path,
}

/// The paths of a register's bytes, of which a general one has eight.
type Bytes = [Path; 16];

/// The paths of all places at once.
struct Paths {
    origin: u64,
    registers: Vec<Bytes>,
    vectors: Vec<Bytes>,
    memory: Vec<Path>,
}

impl Paths {
    fn start(lent: &Lent) -> Paths {
        let begun =
            |mark: u8, kind, number| (mark != 0).then(|| Rc::new(Link { numbers: [kind, number, 0], earlier: None }));
        let of_register = |kind, register: usize, [low, high]: [u64; 2]| -> Bytes {
            let marks = [low.to_le_bytes(), high.to_le_bytes()].concat();
            from_fn(|byte| begun(marks[byte], kind, (16 * register + byte) as u64))
        };
        let origin = lent.window.origin;
        Paths {
            origin,
            registers: (0..32).map(|at| of_register(REGISTER, at, [lent.registers[at], 0])).collect(),
            vectors: (0..32).map(|at| of_register(VECTOR, at, lent.vectors[at])).collect(),
            memory: lent.taint.iter().zip(0..).map(|(&mark, at)| begun(mark, BYTE, origin.wrapping_add(at))).collect(),
        }
    }

    /// The paths of a register in a place where 31 is zero.
    fn data(&self, instruction: &Instruction, register: u8) -> Bytes {
        match (instruction.vector, register) {
            (true, _) => self.vectors[register as usize].clone(),
            (false, 31) => Bytes::default(),
            (false, _) => self.registers[register as usize].clone(),
        }
    }

    /// Does a step that was tested, at a place of memory.
    fn step(&mut self, number: u64, instruction: &Instruction, at: usize, status: u8) {
        let copied = |kind, place, path: &Path| {
            let link = |earlier: &Rc<Link>| Link { numbers: [kind, place, number + 1], earlier: Some(earlier.clone()) };
            path.as_ref().map(|earlier| Rc::new(link(earlier)))
        };
        let width = 1 << instruction.size;
        let moved = [instruction.rt, instruction.rt2].into_iter().take(if instruction.is_pair() { 2 } else { 1 });
        for (part, register) in moved.enumerate() {
            let first = at + part * width;
            if !instruction.is_store() {
                let loaded = &self.memory[first..first + width];
                let kind = if instruction.vector { VECTOR } else { REGISTER };
                let paths = from_fn(|byte| {
                    let from = source_of(instruction, byte, width).map_or(&None, |from| &loaded[from]);
                    copied(kind, 16 * u64::from(register) + byte as u64, from)
                });
                match (instruction.vector, register) {
                    (true, _) => self.vectors[register as usize] = paths,
                    (false, 31) => {}
                    (false, _) => self.registers[register as usize] = paths,
                }
            } else if !(instruction.has_status() && status == 1) {
                for (byte, path) in self.data(instruction, register).iter().take(width).enumerate() {
                    let address = self.origin.wrapping_add((first + byte) as u64);
                    self.memory[first + byte] = copied(BYTE, address, path);
                }
            }
        }
        if instruction.writes_back() {
            self.registers[instruction.rn as usize] = Bytes::default();
        }
        if instruction.has_status() && instruction.rs != 31 {
            self.registers[instruction.rs as usize] = Bytes::default();
        }
    }
}

/// The byte of a register's part of a load that one of its bytes is a copy of.
fn source_of(instruction: &Instruction, byte: usize, width: usize) -> Option<usize> {
    let extent = match instruction.operation {
        Operation::LoadSigned64 => 8,
        Operation::LoadSigned32 => 4,
        _ => width,
    };
    (byte < extent).then(|| byte.min(width - 1))
}

/// The instruction of a step, and the place of its access, where some run can have left it.
fn tested(lent: &Lent, step: usize) -> Option<(Instruction, usize)> {
    let instruction = decode(lent.words[step]).ok().filter(|instruction| !instruction.is_unpredictable())?;
    let (code, address) = (lent.trace[2 * step], lent.trace[2 * step + 1]);
    if lent.statuses[step] > 1 {
        return None;
    }
    if instruction.operation == Operation::Prefetch {
        return (code == 0 && address == 0).then_some((instruction, 0));
    }
    let length = (if instruction.is_pair() { 2 } else { 1 }) << instruction.size;
    let end = u128::from(lent.window.origin) + u128::from(lent.len);
    let stays = address >= lent.window.origin && u128::from(address) + length as u128 <= end;
    let direction = if instruction.is_store() { 64 } else { 0 };
    if code != length as u64 + direction || is_misaligned(&instruction, address, length) || !stays {
        return None;
    }
    let at = address - lent.window.origin;
    (!instruction.is_store() || at >= lent.window.readonly).then_some((instruction, at as usize))
}

/// The links, latest first, or the refusal: 1, 7, 11, 17 and 18, in this order. That of 10 is the caller's to see.
pub fn explain(lent: &Lent, asked: Asked) -> Result<Vec<[u64; 3]>, u8> {
    let Window { origin, readonly } = lent.window;
    let end = u128::from(origin) + u128::from(lent.len);
    if end > 1 << 64 || readonly > lent.len || lent.taint.len() as u64 != lent.len {
        return Err(BAD_WINDOW);
    }
    if asked.kind == BYTE && (asked.number < origin || u128::from(asked.number) >= end) {
        return Err(OUT_OF_WINDOW);
    }
    let bytes = match asked.kind {
        REGISTER => 8,
        VECTOR => 16,
        BYTE => u64::MAX,
        _ => 0,
    };
    if asked.kind != BYTE && (asked.number > 31 || asked.byte >= bytes) {
        return Err(NO_SUCH_INSTRUCTION);
    }
    let shortest = (lent.words.len() as u64).min(lent.statuses.len() as u64).min(lent.trace.len() as u64 / 2);
    if shortest < lent.steps {
        return Err(BAD_TRACE);
    }
    let steps: Option<Vec<_>> = (0..lent.steps as usize).map(|step| tested(lent, step)).collect();
    let steps = steps.ok_or(BAD_TRACE)?;
    if asked.step > lent.steps {
        return Err(AFTER_END);
    }
    let mut paths = Paths::start(lent);
    for (step, (instruction, at)) in steps[..asked.step as usize].iter().enumerate() {
        if instruction.operation != Operation::Prefetch {
            paths.step(step as u64, instruction, *at, lent.statuses[step]);
        }
    }
    let mut path = match asked.kind {
        REGISTER => paths.registers[asked.number as usize][asked.byte as usize].clone(),
        VECTOR => paths.vectors[asked.number as usize][asked.byte as usize].clone(),
        _ => paths.memory[(asked.number - origin) as usize].clone(),
    };
    let mut links = Vec::new();
    while let Some(link) = path {
        links.push(link.numbers);
        path = link.earlier.clone();
    }
    Ok(links)
}
