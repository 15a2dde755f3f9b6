use crate::{Direction, Extend, Family, Instruction, Numbers, Register, VectorRegister};
use std::fmt;

/// A byte that is tainted or not: of a register, of a vector register, or of memory.
///
/// The lowest byte of a register is byte 0; a register has eight and a vector register sixteen.
///
/// ```
/// use milestarling::{Place, Register, VectorRegister};
///
/// assert_eq!(Place::Register(Register::X2, 0).to_string(), "x2 byte 0");
/// assert_eq!(Place::Vector(VectorRegister::V5, 15).to_string(), "q5 byte 15");
/// assert_eq!(Place::Memory(0x1010).to_string(), "0x1010");
/// ```
///
/// Neither of these compiles:
///
/// ```compile_fail,E0308
/// milestarling::Place::Vector(milestarling::Register::X2, 0);
/// ```
///
/// ```compile_fail,E0308
/// milestarling::Place::Register(2, 0);
/// ```
#[derive(Clone, Copy, Debug, PartialEq, Eq, PartialOrd, Ord, Hash)]
pub enum Place {
    /// A byte of a register, 0 to 7.
    Register(Register, u8),
    /// A byte of a vector register, 0 to 15.
    Vector(VectorRegister, u8),
    /// A byte of memory, by its address.
    Memory(u64),
}

impl Place {
    /// The eight bytes of a register.
    pub fn of_register(register: Register) -> impl DoubleEndedIterator<Item = Place> + ExactSizeIterator {
        (0..8).map(move |byte| Place::Register(register, byte))
    }

    /// The sixteen bytes of a vector register.
    pub fn of_vector(register: VectorRegister) -> impl DoubleEndedIterator<Item = Place> + ExactSizeIterator {
        (0..16).map(move |byte| Place::Vector(register, byte))
    }

    /// The kind, the number and the byte that [`raw::why`](crate::raw::why) takes.
    pub(crate) fn asked(self) -> (u64, u64, u64) {
        match self {
            Place::Register(register, byte) => (0, register.number().into(), byte.into()),
            Place::Memory(address) => (1, address, 0),
            Place::Vector(register, byte) => (2, register.number().into(), byte.into()),
        }
    }

    /// The place of a link's kind and number.
    pub(crate) fn of_link(kind: u64, number: u64) -> Option<Place> {
        let (register, byte) = (usize::try_from(number / 16).ok()?, (number % 16) as u8);
        match kind {
            0 => Register::all().nth(register).map(|register| Place::Register(register, byte)),
            1 => Some(Place::Memory(number)),
            2 => VectorRegister::all().nth(register).map(|register| Place::Vector(register, byte)),
            _ => None,
        }
    }
}

impl fmt::Display for Place {
    fn fmt(&self, f: &mut fmt::Formatter<'_>) -> fmt::Result {
        match self {
            Place::Register(register, byte) => f.pad(&format!("{register} byte {byte}")),
            Place::Vector(register, byte) => f.pad(&format!("{register} byte {byte}")),
            Place::Memory(address) => f.pad(&format!("{address:#x}")),
        }
    }
}

/// One piece of why a byte is tainted: the step that tainted it by a copy, or that it was tainted at the start.
///
/// It shows itself as a sentence, in which steps are counted from 1.
#[derive(Clone, Copy, Debug, PartialEq, Eq, Hash)]
#[non_exhaustive]
pub struct Link {
    /// The byte.
    pub place: Place,
    /// What tainted it; none where it was tainted at the start.
    pub copied: Option<Copied>,
}

/// A step that has copied a tainted byte.
#[derive(Clone, Copy, PartialEq, Eq, Hash)]
#[non_exhaustive]
pub struct Copied {
    /// Which step of the run, from 0.
    pub step: usize,
    /// Its word.
    pub word: u32,
    /// The byte that it has copied, which was tainted just before it.
    pub from: Place,
}

impl Link {
    pub(crate) const fn new(place: Place, copied: Option<Copied>) -> Link {
        Link { place, copied }
    }
}

impl Copied {
    pub(crate) const fn new(step: usize, word: u32, from: Place) -> Copied {
        Copied { step, word, from }
    }
}

impl fmt::Display for Link {
    fn fmt(&self, f: &mut fmt::Formatter<'_>) -> fmt::Result {
        match self.copied {
            Some(copied) => write!(f, "{}: {copied}", self.place),
            None => write!(f, "{}: tainted at the start", self.place),
        }
    }
}

impl fmt::Display for Copied {
    fn fmt(&self, f: &mut fmt::Formatter<'_>) -> fmt::Result {
        write!(f, "step {}, ", self.step.saturating_add(1))?;
        match Instruction::new(self.word) {
            Ok(instruction) => write!(f, "{instruction}")?,
            Err(_) => write!(f, "{:08x}", self.word)?,
        }
        write!(f, ", from {}", self.from)
    }
}

impl Instruction {
    /// The bytes of registers that the address is formed of: the base's eight, and of an index the low four with `uxtw` and
    /// `sxtw` and else all eight. None for a literal, whose address comes of PC, and for a prefetch, which has none.
    ///
    /// A step that isn't refused by an earlier answer is refused with
    /// [`TaintedAddress`](crate::Answer::TaintedAddress) exactly if one of them is tainted.
    ///
    /// ```
    /// use milestarling::{Instruction, Place, Register};
    ///
    /// # fn main() -> Result<(), milestarling::Refusal> {
    /// let load: Instruction = "ldrb w4, [sp, w2, uxtw]".parse()?;
    /// let bytes = load.address_bytes();
    /// assert_eq!(bytes.len(), 8 + 4);
    /// assert_eq!((bytes[0], bytes[11]), (Place::Register(Register::SP, 0), Place::Register(Register::X2, 3)));
    /// # Ok(())
    /// # }
    /// ```
    pub fn address_bytes(self) -> Vec<Place> {
        let Numbers { base, index, .. } = self.numbers();
        if self.family() == Family::Literal || self.direction() == Direction::NoAccess {
            return Vec::new();
        }
        // 31 is SP as the base, and no register as an index.
        let base = Register::all().nth(base as usize);
        let index = Register::x(index as u8).filter(|_| self.family() == Family::Register);
        let used = if matches!(self.extend(), Some(Extend::Uxtw | Extend::Sxtw)) { 4 } else { 8 };
        let base = base.into_iter().flat_map(Place::of_register);
        base.chain(index.into_iter().flat_map(|index| Place::of_register(index).take(used))).collect()
    }
}
