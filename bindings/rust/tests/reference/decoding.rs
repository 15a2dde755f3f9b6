//! "The instructions we take" and "What a word says".

use super::{NOT_IN_SET, UNDEFINED};

#[derive(Clone, Copy, Debug, PartialEq, Eq)]
pub enum Operation {
    Store,
    /// Zeros above what was loaded.
    Load,
    LoadSigned64,
    LoadSigned32,
    Prefetch,
}

#[derive(Clone, Copy, Debug, PartialEq, Eq)]
pub enum Mode {
    NoAllocate,
    Post,
    Offset,
    Pre,
}

#[derive(Clone, Copy, Debug, PartialEq, Eq)]
pub enum Family {
    Literal,
    Pair(Mode),
    Ordered,
    Unscaled,
    PostIndex,
    PreIndex,
    Register,
    Unsigned,
    /// The ninth family, of 02: whether the monitor is asked, and whether it acquires or releases.
    Exclusive {
        monitored: bool,
        ordered: bool,
    },
}

/// An allocated word. A field that the family doesn't have is 0.
#[derive(Clone, Copy, Debug, PartialEq, Eq)]
pub struct Instruction {
    pub family: Family,
    pub operation: Operation,
    /// Whether the registers that move are vectors.
    pub vector: bool,
    /// The logarithm of the bytes that one register moves.
    pub size: u32,
    pub rt: u8,
    pub rt2: u8,
    pub rn: u8,
    pub rm: u8,
    /// The status register of a store-exclusive.
    pub rs: u8,
    pub option: u8,
    pub shifted: bool,
    /// In bytes.
    pub offset: i64,
}

impl Instruction {
    pub fn is_pair(&self) -> bool {
        matches!(self.family, Family::Pair(_))
    }

    pub fn is_store(&self) -> bool {
        self.operation == Operation::Store
    }

    /// Whether the base comes first and is changed afterwards.
    pub fn is_post(&self) -> bool {
        matches!(self.family, Family::PostIndex | Family::Pair(Mode::Post))
    }

    pub fn writes_back(&self) -> bool {
        self.is_post() || matches!(self.family, Family::PreIndex | Family::Pair(Mode::Pre))
    }

    /// Whether it is a load-exclusive or a store-exclusive.
    pub fn is_monitored(&self) -> bool {
        matches!(self.family, Family::Exclusive { monitored: true, .. })
    }

    /// Whether it is a store-exclusive.
    pub fn has_status(&self) -> bool {
        self.is_monitored() && self.is_store()
    }

    /// Answer 4. "A vector register never collides with a base."
    pub fn is_unpredictable(&self) -> bool {
        if self.has_status() {
            return self.rs == self.rt || self.rs == self.rn && self.rn != 31;
        }
        let moves_base = !self.vector && (self.rn == self.rt || self.is_pair() && self.rn == self.rt2);
        self.writes_back() && self.rn != 31 && moves_base || self.is_pair() && !self.is_store() && self.rt == self.rt2
    }
}

fn field(word: u32, high: u32, low: u32) -> u32 {
    word << (31 - high) >> (31 - high + low)
}

fn signed(word: u32, high: u32, low: u32) -> i64 {
    ((word << (31 - high)) as i32 >> (31 - high + low)) as i64
}

fn is_vector(word: u32) -> bool {
    field(word, 26, 26) == 1
}

/// The line of 01's table, or 02's, that the word matches. Two of them have no vectors.
fn family_of(word: u32) -> Option<Family> {
    let family = line_of(word)?;
    let general = matches!(family, Family::Ordered | Family::Exclusive { .. });
    (!general || !is_vector(word)).then_some(family)
}

/// The same, whatever bit 26 is.
fn line_of(word: u32) -> Option<Family> {
    let tail = (field(word, 21, 21), field(word, 11, 10));
    match (field(word, 29, 27), field(word, 25, 24)) {
        (0b011, 0b00) => Some(Family::Literal),
        (0b101, 0b00 | 0b01) => Some(Family::Pair(match field(word, 24, 23) {
            0b00 => Mode::NoAllocate,
            0b01 => Mode::Post,
            0b10 => Mode::Offset,
            _ => Mode::Pre,
        })),
        (0b011, 0b01) if tail == (0, 0b00) => Some(Family::Ordered),
        (0b111, 0b00) => match tail {
            (0, 0b00) => Some(Family::Unscaled),
            (0, 0b01) => Some(Family::PostIndex),
            (0, 0b11) => Some(Family::PreIndex),
            (1, 0b10) => Some(Family::Register),
            _ => None,
        },
        (0b111, 0b01) => Some(Family::Unsigned),
        (0b001, 0b00) if tail.0 == 0 => match (field(word, 23, 23), field(word, 15, 15)) {
            (0, last) => Some(Family::Exclusive { monitored: true, ordered: last == 1 }),
            (_, 1) => Some(Family::Exclusive { monitored: false, ordered: true }),
            _ => None,
        },
        _ => None,
    }
}

/// Size and operation of a vector's word that isn't undefined. What has 16 bytes "takes 4 for size".
fn vector_kind_of(word: u32, family: Family) -> Option<(u32, Operation)> {
    let (top, opc) = (field(word, 31, 30), field(word, 23, 22));
    let moves = |load: u32| if load == 1 { Operation::Load } else { Operation::Store };
    match family {
        Family::Literal | Family::Pair(_) if top == 0b11 => None,
        Family::Literal => Some((2 + top, Operation::Load)),
        Family::Pair(_) => Some((2 + top, moves(field(word, 22, 22)))),
        Family::Register if field(word, 14, 14) == 0 => None,
        _ => match (top, opc >> 1) {
            (_, 0) => Some((top, moves(opc & 1))),
            (0b00, _) => Some((4, moves(opc & 1))),
            _ => None,
        },
    }
}

/// Size and operation of a word that isn't undefined.
fn kind_of(word: u32, family: Family) -> Option<(u32, Operation)> {
    if is_vector(word) {
        return vector_kind_of(word, family);
    }
    let top = field(word, 31, 30);
    match family {
        Family::Literal => Some(match top {
            0b00 => (2, Operation::Load),
            0b01 => (3, Operation::Load),
            0b10 => (2, Operation::LoadSigned64),
            _ => (3, Operation::Prefetch),
        }),
        Family::Pair(mode) => {
            let loads = field(word, 22, 22) == 1;
            let plain = if loads { Operation::Load } else { Operation::Store };
            match top {
                0b00 => Some((2, plain)),
                0b10 => Some((3, plain)),
                0b01 if loads && mode != Mode::NoAllocate => Some((2, Operation::LoadSigned64)),
                _ => None,
            }
        }
        Family::Exclusive { monitored, .. } => {
            let loads = field(word, 22, 22) == 1;
            let has_status = monitored && !loads;
            if field(word, 14, 10) != 31 || !has_status && field(word, 20, 16) != 31 {
                return None;
            }
            Some((top, if loads { Operation::Load } else { Operation::Store }))
        }
        _ => {
            if family == Family::Register && field(word, 14, 14) == 0 {
                return None;
            }
            let operation = match (top, field(word, 23, 22)) {
                (_, 0b00) => Operation::Store,
                (_, 0b01) => Operation::Load,
                (0b11, 0b10) => match family {
                    Family::Unscaled | Family::Register | Family::Unsigned => Operation::Prefetch,
                    _ => return None,
                },
                (_, 0b10) => Operation::LoadSigned64,
                (0b10 | 0b11, _) => return None,
                _ => Operation::LoadSigned32,
            };
            Some((top, operation))
        }
    }
}

/// The instruction of a word, or answer 2 or 3.
pub fn decode(word: u32) -> Result<Instruction, u8> {
    let family = family_of(word).ok_or(NOT_IN_SET)?;
    let (size, operation) = kind_of(word, family).ok_or(UNDEFINED)?;
    let mut instruction = Instruction {
        family,
        operation,
        vector: is_vector(word),
        size,
        rt: field(word, 4, 0) as u8,
        rt2: 0,
        rn: field(word, 9, 5) as u8,
        rm: 0,
        rs: 0,
        option: 0,
        shifted: false,
        offset: 0,
    };
    match family {
        Family::Literal => {
            instruction.rn = 0;
            instruction.offset = signed(word, 23, 5) * 4;
        }
        Family::Pair(_) => {
            instruction.rt2 = field(word, 14, 10) as u8;
            instruction.offset = signed(word, 21, 15) << size;
        }
        Family::Register => {
            instruction.rm = field(word, 20, 16) as u8;
            instruction.option = field(word, 15, 13) as u8;
            instruction.shifted = field(word, 12, 12) == 1;
        }
        Family::Unsigned => instruction.offset = (field(word, 21, 10) as i64) << size,
        Family::Ordered | Family::Unscaled | Family::PostIndex | Family::PreIndex => {
            instruction.offset = signed(word, 20, 12);
        }
        Family::Exclusive { .. } if instruction.has_status() => instruction.rs = field(word, 20, 16) as u8,
        Family::Exclusive { .. } => {}
    }
    Ok(instruction)
}

/// 0, 2, 3 or 4, as a listing shows it.
pub fn classify(word: u32) -> u8 {
    match decode(word) {
        Err(answer) => answer,
        Ok(instruction) if instruction.is_unpredictable() => super::UNPREDICTABLE,
        Ok(_) => super::DONE,
    }
}
