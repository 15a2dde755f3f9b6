//! What the tests make their inputs of. The same seed gives the same inputs on every machine.

// Each test takes the part that it needs.
#![allow(dead_code)]

use crate::reference::decoding::{Family, Instruction};
use crate::reference::running::{Monitor, State};
use milestarling::raw::{SessionRecord, VectorsRecord};
use milestarling::Taint;
use std::array::from_fn;
use std::fs;
use std::path::Path;

/// A file that is stored beside a program.
pub fn stored(program: &str, name: &str) -> Vec<u8> {
    let path = Path::new(env!("CARGO_MANIFEST_DIR")).join("../../crates").join(program).join(name);
    fs::read(&path).unwrap_or_else(|error| panic!("{}: {error}", path.display()))
}

/// The reference's state of a session's records, in which any byte of a taint but 0 is a mark.
pub fn state_of(record: &SessionRecord, vectors: &VectorsRecord) -> State {
    let marks = |taint: Taint| taint.to_raw().to_le_bytes().map(|byte| byte != 0);
    State {
        registers: record.value,
        taints: record.value_taint.map(marks),
        pc: record.pc,
        monitor: Monitor { address: record.monitor_address, size: record.monitor_size },
        vectors: vectors.value.map(joined),
        vector_taints: vectors.taint.map(|halves| from_fn(|byte| marks(halves[byte / 8])[byte % 8])),
    }
}

/// The number of two halves, the low one first.
pub fn joined([low, high]: [u64; 2]) -> u128 {
    u128::from(high) << 64 | u128::from(low)
}

/// Whether a call has left the taints of two records as it has to: what it doesn't set keeps its bits, and the bytes of what it
/// does become 0 or 1.
pub fn kept_or_set(before: (&SessionRecord, &VectorsRecord), after: (&SessionRecord, &VectorsRecord)) -> bool {
    let taints = |(record, vectors): (&SessionRecord, &VectorsRecord)| -> Vec<Taint> {
        record.value_taint.into_iter().chain(vectors.taint.into_iter().flatten()).collect()
    };
    let mut pairs = taints(before).into_iter().zip(taints(after));
    pairs.all(|(before, after)| after == before || after.to_raw() & !Taint::ALL.to_raw() == 0)
}

/// A register's taint of which some bytes, or only those of one half, are marked, each by any number.
pub fn some_bytes(random: &mut Random) -> Taint {
    let any = (0..8).fold(0, |taint, byte| taint | (*random.choose(&[0, 0, 1, 1, 2, 0x80, 0xff]) as u64) << (8 * byte));
    let part = match random.below(6) {
        0 => 0xffff_ffff,
        1 => 0xffff_ffff << 32,
        2 | 3 => 0xff << (8 * random.below(8)),
        _ => u64::MAX,
    };
    Taint::from_raw(any & part)
}

/// Vector registers of any numbers, of which once in so many times a half has some bytes marked.
pub fn some_vectors(random: &mut Random, rarity: usize) -> VectorsRecord {
    let mut vectors = VectorsRecord::default();
    vectors.value.iter_mut().flatten().for_each(|half| *half = random.next());
    for half in vectors.taint.iter_mut().flatten() {
        if random.once_in(rarity) {
            *half = some_bytes(random);
        }
    }
    vectors
}

/// Steele, Lea and Flood's SplitMix64.
pub struct Random(u64);

impl Random {
    pub fn new(seed: u64) -> Random {
        Random(seed)
    }

    pub fn next(&mut self) -> u64 {
        self.0 = self.0.wrapping_add(0x9e37_79b9_7f4a_7c15);
        let mixed = (self.0 ^ self.0 >> 30).wrapping_mul(0xbf58_476d_1ce4_e5b9);
        let mixed = (mixed ^ mixed >> 27).wrapping_mul(0x94d0_49bb_1331_11eb);
        mixed ^ mixed >> 31
    }

    pub fn word(&mut self) -> u32 {
        (self.next() >> 32) as u32
    }

    /// A number below a limit, which isn't 0.
    pub fn below(&mut self, limit: usize) -> usize {
        ((self.next() as u128 * limit as u128) >> 64) as usize
    }

    /// True once in so many times.
    pub fn once_in(&mut self, times: usize) -> bool {
        self.below(times) == 0
    }

    pub fn choose<'a, T>(&mut self, from: &'a [T]) -> &'a T {
        &from[self.below(from.len())]
    }

    pub fn fill(&mut self, bytes: &mut [u8]) {
        for part in bytes.chunks_mut(8) {
            let random = self.next().to_le_bytes();
            part.copy_from_slice(&random[..part.len()]);
        }
    }
}

/// So many bytes to fill a buffer with: 251 that differ from each other, over and over, so that a byte in a wrong place
/// shows.
pub fn distinct(length: usize) -> Vec<u8> {
    (0..length).map(|at| (at % 251) as u8).collect()
}

/// 2^k - 1, 2^k and 2^k + 1 for each k up to 64, modulo 2^64.
pub fn about_powers() -> impl Iterator<Item = u64> {
    (0..=64).flat_map(|k| {
        let power = 1u64.checked_shl(k).unwrap_or(0);
        [power.wrapping_sub(1), power, power.wrapping_add(1)]
    })
}

/// One of these.
pub fn about_power(random: &mut Random) -> u64 {
    let power = 1u64.checked_shl(random.below(65) as u32).unwrap_or(0);
    power.wrapping_add(random.below(3) as u64).wrapping_sub(1)
}

/// The bits that each line of 01's table fixes, and their values: literal, pair, ordered, unscaled, post, pre,
/// register, unsigned; and 02's ninth family, exclusive. Bit 26 is fixed where there are no vectors.
pub const LINES: [(u32, u32); 9] = [
    (0x3b00_0000, 0x1800_0000),
    (0x3a00_0000, 0x2800_0000),
    (0x3f20_0c00, 0x1900_0000),
    (0x3b20_0c00, 0x3800_0000),
    (0x3b20_0c00, 0x3800_0400),
    (0x3b20_0c00, 0x3800_0c00),
    (0x3b20_0c00, 0x3820_0800),
    (0x3b00_0000, 0x3900_0000),
    (0x3f20_0000, EXCLUSIVE),
];

const EXCLUSIVE: u32 = 0x0800_0000;

/// The fields that hold a register or a number in some line, as highest and lowest bit.
const FIELDS: [(u32, u32); 8] = [(4, 0), (9, 5), (14, 10), (20, 16), (21, 15), (20, 12), (21, 10), (23, 5)];

/// A word of a line of the table, whatever else it is.
pub fn word_of_line(random: &mut Random) -> u32 {
    let (mask, value) = *random.choose(&LINES);
    let mut word = random.word();
    // The ends of a field come up seldom by chance.
    while random.once_in(3) {
        let (high, low) = *random.choose(&FIELDS);
        let ones = ((1u64 << (high - low + 1)) - 1) as u32;
        let edge = *random.choose(&[0, 1, ones, ones - 1, ones >> 1, (ones >> 1) + 1]);
        word = word & !(ones << low) | edge << low;
    }
    if value == EXCLUSIVE && !random.once_in(8) {
        // Fields that have to be ones, which are seldom so by chance.
        word |= *random.choose(&[0x1f << 10, 0x1f << 10 | 0x1f << 16]);
    }
    word & !mask | value
}

/// A word, of the set or just beside it or of any kind.
pub fn any_word(random: &mut Random) -> u32 {
    match random.below(8) {
        0 => random.word(),
        1 => word_of_line(random) ^ 1 << random.below(32),
        _ => word_of_line(random),
    }
}

/// An allocated word.
pub fn allocated_word(random: &mut Random) -> u32 {
    loop {
        let word = word_of_line(random);
        if crate::reference::decoding::decode(word).is_ok() {
            return word;
        }
    }
}

/// What lies before and behind a buffer that was lent, and in a trace that wasn't written.
pub const GUARD: usize = 24;

/// The part of a buffer that is lent.
pub fn inner<T>(guarded: &mut [T]) -> &mut [T] {
    let end = guarded.len() - GUARD;
    &mut guarded[GUARD..end]
}

/// A number that is often at an end of its range.
pub fn number(random: &mut Random) -> u64 {
    match random.below(8) {
        0 => random.below(300) as u64,
        1 => (random.below(300) as u64).wrapping_neg(),
        2 | 3 => about_power(random),
        // In the low half, which is all that some indexes and stores take.
        4 => random.next() << 32 | about_power(random) & 0xffff_ffff,
        5 => (random.word() as i32) as u64,
        _ => random.next(),
    }
}

/// Taints some bytes, often none.
pub fn taints(random: &mut Random, bytes: &mut [u8]) {
    let rarity = *random.choose(&[1000, 40, 40, 8, 2]);
    for byte in bytes {
        if random.once_in(rarity) {
            *byte = *random.choose(&[1, 1, 2, 0x80, 0xff]);
        }
    }
}

/// A buffer of so many bytes, with guards about them.
pub fn guarded(random: &mut Random, len: usize) -> Vec<u8> {
    let mut bytes = vec![0; len + 2 * GUARD];
    random.fill(&mut bytes);
    for part in bytes.chunks_exact_mut(8) {
        if random.once_in(4) {
            part.copy_from_slice(&about_power(random).to_le_bytes());
        }
    }
    bytes
}

/// The address of a memory of so many bytes, often at an end of the address space, and seldom so that it reaches past it.
pub fn any_origin(random: &mut Random, len: usize) -> u64 {
    match random.below(8) {
        0 => 0,
        1 | 2 => (len as u64).wrapping_neg(),
        3 => (len as u64).wrapping_neg().wrapping_sub(random.below(20) as u64),
        // One of the windows that reach past the end.
        4 if random.once_in(4) => (len as u64).wrapping_neg().wrapping_add(random.below(20) as u64),
        5 => number(random) & !0xf,
        _ => random.next() >> random.below(56),
    }
}

/// What an index register's value adds to the base.
pub fn index_taken(instruction: &Instruction, index: u64) -> u64 {
    let taken = match instruction.option {
        0b010 => index & 0xffff_ffff,
        0b110 => index as u32 as i32 as i64 as u64,
        _ => index,
    };
    taken << if instruction.shifted { instruction.size } else { 0 }
}

/// Sets the registers that a step takes its address from, or PC, so that the access is at a place or just below it.
pub fn lead_to(random: &mut Random, session: &mut SessionRecord, instruction: &Instruction, target: u64) {
    let width = (if instruction.is_pair() { 2 } else { 1 }) << instruction.size;
    let offset = instruction.offset as u64;
    match instruction.family {
        Family::Literal => session.pc = target.wrapping_sub(offset) & !3,
        Family::Register => {
            let index = match instruction.rm {
                31 => 0,
                rm => {
                    session.value[rm as usize] = number(random);
                    session.value[rm as usize]
                }
            };
            if instruction.rn != instruction.rm || instruction.rn == 31 {
                session.value[instruction.rn as usize] = target.wrapping_sub(index_taken(instruction, index));
            }
        }
        _ if instruction.is_post() => session.value[instruction.rn as usize] = target,
        _ => session.value[instruction.rn as usize] = target.wrapping_sub(offset),
    }
    // SP as a base is mostly aligned, up to 15 bytes lower.
    if !random.once_in(4) {
        session.value[31] &= !15;
    }
    if instruction.is_monitored() {
        let base = &mut session.value[instruction.rn as usize];
        if !random.once_in(4) {
            *base &= !(width - 1);
        }
        if random.once_in(2) {
            (session.monitor_address, session.monitor_size) = (*base, width);
        }
    }
}
