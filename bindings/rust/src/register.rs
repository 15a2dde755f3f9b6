use std::error::Error;
use std::fmt;
use std::str::FromStr;

/// The name of a register: X0 to X30 or SP.
///
/// ```
/// use milestarling::Register;
///
/// assert_eq!(Register::x(3), Some(Register::X3));
/// assert_eq!(Register::x(31), None);
/// assert_eq!((Register::X3.number(), Register::SP.number()), (3, 31));
/// assert_eq!(Register::SP.to_string(), "sp");
/// assert_eq!("x30".parse(), Ok(Register::X30));
/// ```
#[derive(Clone, Copy, Debug, PartialEq, Eq, PartialOrd, Ord, Hash)]
pub struct Register(u8);

/// The name of a vector register, V0 to V31, each of which has sixteen bytes. 31 is one like any other.
///
/// It is written and read as texts have the whole register, `q0` to `q31`.
///
/// ```
/// use milestarling::VectorRegister;
///
/// assert_eq!(VectorRegister::v(31), Some(VectorRegister::V31));
/// assert_eq!(VectorRegister::v(32), None);
/// assert_eq!(VectorRegister::V3.to_string(), "q3");
/// assert_eq!("q30".parse(), Ok(VectorRegister::V30));
/// ```
#[derive(Clone, Copy, Debug, PartialEq, Eq, PartialOrd, Ord, Hash)]
pub struct VectorRegister(u8);

macro_rules! names {
    ($($name:ident = $number:literal),*) => {
        $(#[doc = concat!("Register ", stringify!($name), ".")] pub const $name: Self = Self($number);)*
    };
}

impl Register {
    names! {
        X0 = 0, X1 = 1, X2 = 2, X3 = 3, X4 = 4, X5 = 5, X6 = 6, X7 = 7, X8 = 8, X9 = 9, X10 = 10, X11 = 11,
        X12 = 12, X13 = 13, X14 = 14, X15 = 15, X16 = 16, X17 = 17, X18 = 18, X19 = 19, X20 = 20, X21 = 21,
        X22 = 22, X23 = 23, X24 = 24, X25 = 25, X26 = 26, X27 = 27, X28 = 28, X29 = 29, X30 = 30
    }

    /// The stack pointer.
    pub const SP: Register = Register(31);

    /// X0 to X30 by number.
    pub const fn x(number: u8) -> Option<Register> {
        if number <= 30 {
            Some(Register(number))
        } else {
            None
        }
    }

    /// Its number, as the record, [`raw::set_register`](crate::raw::set_register) and the base of
    /// [`Numbers`](crate::Numbers) have it: 0 to 30, and 31 for SP.
    pub const fn number(self) -> u32 {
        self.0 as u32
    }

    /// All registers: X0 to X30, then SP.
    pub fn all() -> impl DoubleEndedIterator<Item = Register> + ExactSizeIterator {
        (0..32u8).map(Register)
    }
}

impl VectorRegister {
    names! {
        V0 = 0, V1 = 1, V2 = 2, V3 = 3, V4 = 4, V5 = 5, V6 = 6, V7 = 7, V8 = 8, V9 = 9, V10 = 10, V11 = 11,
        V12 = 12, V13 = 13, V14 = 14, V15 = 15, V16 = 16, V17 = 17, V18 = 18, V19 = 19, V20 = 20, V21 = 21,
        V22 = 22, V23 = 23, V24 = 24, V25 = 25, V26 = 26, V27 = 27, V28 = 28, V29 = 29, V30 = 30, V31 = 31
    }

    /// V0 to V31 by number.
    pub const fn v(number: u8) -> Option<VectorRegister> {
        if number <= 31 {
            Some(VectorRegister(number))
        } else {
            None
        }
    }

    /// Its number, 0 to 31.
    pub const fn number(self) -> u32 {
        self.0 as u32
    }

    /// All vector registers: V0 to V31.
    pub fn all() -> impl DoubleEndedIterator<Item = VectorRegister> + ExactSizeIterator {
        (0..32u8).map(VectorRegister)
    }
}

/// `x0` to `x30`, or `sp`.
impl FromStr for Register {
    type Err = UnknownRegister;

    fn from_str(name: &str) -> Result<Register, UnknownRegister> {
        Register::all().find(|register| register.to_string() == name).ok_or(UnknownRegister)
    }
}

/// `q0` to `q31`.
impl FromStr for VectorRegister {
    type Err = UnknownRegister;

    fn from_str(name: &str) -> Result<VectorRegister, UnknownRegister> {
        VectorRegister::all().find(|register| register.to_string() == name).ok_or(UnknownRegister)
    }
}

/// A name that is no register's.
#[derive(Clone, Copy, Debug, PartialEq, Eq)]
pub struct UnknownRegister;

impl fmt::Display for UnknownRegister {
    fn fmt(&self, f: &mut fmt::Formatter<'_>) -> fmt::Result {
        f.write_str("a register's name is x0 to x30 or sp, and a vector register's q0 to q31")
    }
}

impl Error for UnknownRegister {}

impl fmt::Display for Register {
    fn fmt(&self, f: &mut fmt::Formatter<'_>) -> fmt::Result {
        match self.0 {
            31 => f.pad("sp"),
            number => f.pad(&format!("x{number}")),
        }
    }
}

impl fmt::Display for VectorRegister {
    fn fmt(&self, f: &mut fmt::Formatter<'_>) -> fmt::Result {
        f.pad(&format!("q{}", self.0))
    }
}
