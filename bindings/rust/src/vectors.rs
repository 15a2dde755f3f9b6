use crate::raw::{self, VectorReply, VectorsRecord};
use crate::shown::{known_bytes, Shown};
use crate::{VectorRegister, VectorTaint};
use std::fmt;

/// A session's vector registers, V0 to V31, of sixteen bytes each, with their taints.
///
/// A [`Session`](crate::Session) has its own, and steps and runs load and store them: a host that computes with none needn't
/// know of them. The lowest byte of a value comes first in memory. A load to b0, h0, s0, d0 or q0 fills the lowest 1, 2, 4, 8 or
/// 16 bytes of V0, and clears those that it doesn't fill, taints too; a store copies bytes with their taints. No vector register
/// forms an address, so that none is refused for its taint, and none collides with a base.
///
/// ```
/// use milestarling::{Memory, Register, Session, Taint, VectorRegister, VectorTaint, Window};
///
/// # fn main() -> Result<(), milestarling::Refusal> {
/// let mut memory = Memory::zeroed(Window::at(4096), 32);
/// memory.write(4098, b"sesame", true)?;
/// let mut session = Session::new();
/// session.set(Register::X1, 4096, Taint::NONE);
///
/// session.step(&mut memory, 0x3dc00020)?; // ldr q0, [x1]
/// assert_eq!(session.vectors().get(VectorRegister::V0).1, VectorTaint::bytes(2..8));
/// assert_eq!(session.vectors().shown(VectorRegister::V0).to_string(), "0x0000000000000000************0000");
///
/// session.step(&mut memory, 0x3d800420)?; // str q0, [x1, #16]
/// assert_eq!(memory.taint()[16..], [0, 0, 1, 1, 1, 1, 1, 1, 0, 0, 0, 0, 0, 0, 0, 0]);
/// session.step(&mut memory, 0x7d400020)?; // ldr h0, [x1]
/// assert_eq!(session.vectors().known(VectorRegister::V0), Some(0));
/// # Ok(())
/// # }
/// ```
#[derive(Clone, Default, PartialEq, Eq)]
#[repr(transparent)]
pub struct Vectors {
    record: VectorsRecord,
}

impl Vectors {
    /// All values 0, and nothing tainted.
    pub fn new() -> Vectors {
        Vectors::default()
    }

    /// A register's value, and which of its bytes are tainted.
    pub fn get(&self, register: VectorRegister) -> (u128, VectorTaint) {
        raw::vector(register.number(), &self.record.value, &self.record.taint).parts()
    }

    /// A register's value where no byte is tainted: one that a host may branch on or show.
    pub fn known(&self, register: VectorRegister) -> Option<u128> {
        let (value, taint) = self.get(register);
        taint.is_none().then_some(value)
    }

    /// The bytes of a register that aren't tainted, the lowest first.
    pub fn known_bytes(&self, register: VectorRegister) -> [Option<u8>; 16] {
        let (value, taint) = self.get(register);
        known_bytes(value.to_le_bytes(), |byte| taint.contains(byte))
    }

    /// Whether any byte of a register is tainted.
    pub fn is_tainted(&self, register: VectorRegister) -> bool {
        !self.get(register).1.is_none()
    }

    /// Sets a register's value and its taint.
    pub fn set(&mut self, register: VectorRegister, value: u128, taint: VectorTaint) {
        let VectorsRecord { value: values, taint: taints } = &mut self.record;
        let halves = [value as u64, (value >> 64) as u64];
        raw::set_vector(values, taints, register.number(), halves, [taint.low(), taint.high()]);
    }

    /// A register's value as a log may have it, in hexadecimal digits: where a byte is tainted all thirty-two, with `**` for
    /// each byte that is.
    pub fn shown(&self, register: VectorRegister) -> impl fmt::Display + fmt::Debug {
        Shown { known: self.known(register), bytes: self.known_bytes(register) }
    }

    /// The record, as [`raw::step`] takes its two parts.
    pub fn as_raw_mut(&mut self) -> &mut VectorsRecord {
        &mut self.record
    }

    /// The vector registers of a record that a host keeps as [`raw::step`] takes its two parts.
    pub const fn from_raw(record: VectorsRecord) -> Vectors {
        Vectors { record }
    }

    /// The registers that aren't 0 or have a tainted byte.
    pub(crate) fn used(&self) -> impl Iterator<Item = VectorRegister> + '_ {
        VectorRegister::all().filter(|&register| self.known(register) != Some(0))
    }
}

impl VectorReply {
    /// The value, and its taint by 0 and 1.
    fn parts(self) -> (u128, VectorTaint) {
        let value = u128::from(self.high) << 64 | u128::from(self.low);
        (value, VectorTaint::halves(self.taint_low.normal(), self.taint_high.normal()))
    }
}

/// The registers that aren't 0. A tainted byte is a secret: it isn't shown, so that no log gets it.
impl fmt::Debug for Vectors {
    fn fmt(&self, f: &mut fmt::Formatter<'_>) -> fmt::Result {
        let shown = self.used().map(|register| (register.to_string(), self.shown(register)));
        shown.fold(&mut f.debug_map(), |map, (name, value)| map.entry(&format_args!("{name}"), &value)).finish()
    }
}

impl fmt::Debug for VectorsRecord {
    fn fmt(&self, f: &mut fmt::Formatter<'_>) -> fmt::Result {
        Vectors::from_raw(*self).fmt(f)
    }
}

impl fmt::Debug for VectorReply {
    fn fmt(&self, f: &mut fmt::Formatter<'_>) -> fmt::Result {
        let (value, taint) = self.parts();
        let bytes = known_bytes(value.to_le_bytes(), |byte| taint.contains(byte));
        fmt::Debug::fmt(&Shown { known: taint.is_none().then_some(value), bytes }, f)
    }
}
