//! Names for the numbers of an instruction.

use crate::Instruction;

macro_rules! named {
    ($(#[$about:meta])* $name:ident { $($(#[$said:meta])* $variant:ident = $number:literal,)* }) => {
        $(#[$about])*
        #[derive(Clone, Copy, Debug, PartialEq, Eq, PartialOrd, Ord, Hash)]
        #[non_exhaustive]
        #[repr(u32)]
        pub enum $name {
            $($(#[$said])* $variant = $number,)*
        }

        impl $name {
            /// All that there are, by their numbers.
            pub const ALL: &'static [$name] = &[$($name::$variant,)*];

            /// The number, as [`Numbers`](crate::Numbers) has it.
            pub const fn number(self) -> u32 {
                self as u32
            }

            /// The one that has a number.
            pub const fn of_number(number: u32) -> Option<$name> {
                match number {
                    $($number => Some($name::$variant),)*
                    _ => None,
                }
            }
        }
    };
}

named! {
    /// How a word names its address: [`Numbers::family`](crate::Numbers::family).
    Family {
        /// By PC and an offset.
        Literal = 1,
        /// Of two registers, in any [`PairMode`].
        Pair = 2,
        /// `ldapur` and `stlur`: by a base and an offset, load-acquire or store-release.
        Ordered = 3,
        /// `ldur` and `stur`: by a base and an offset in bytes.
        Unscaled = 4,
        /// By a base, to which the offset is added behind the access.
        PostIndex = 5,
        /// By a base, to which the offset is added before it.
        PreIndex = 6,
        /// By a base and an index, which [`Extend`] says how to extend.
        Register = 7,
        /// By a base and an offset that is a multiple of the bytes moved.
        Unsigned = 8,
        /// Exclusive, load-acquire and store-release, by a base alone.
        Exclusive = 9,
    }
}

named! {
    /// Which way bytes go: [`Numbers::direction`](crate::Numbers::direction).
    Direction {
        /// None: a prefetch.
        NoAccess = 0,
        /// From memory to registers.
        Load = 1,
        /// From registers to memory.
        Store = 2,
    }
}

named! {
    /// How a pair names its address: [`Numbers::mode`](crate::Numbers::mode).
    PairMode {
        /// By a base and an offset, with a hint that the bytes aren't soon used again: `ldnp` and `stnp`.
        NoAllocate = 0,
        /// By a base, to which the offset is added behind the access.
        Post = 1,
        /// By a base and an offset.
        Offset = 2,
        /// By a base, to which the offset is added before the access.
        Pre = 3,
    }
}

named! {
    /// How an index is extended to 64 bits: [`Numbers::option`](crate::Numbers::option).
    Extend {
        /// The low four bytes, by zeros.
        Uxtw = 2,
        /// All eight bytes.
        Lsl = 3,
        /// The low four bytes, by their sign.
        Sxtw = 6,
        /// All eight bytes.
        Sxtx = 7,
    }
}

named! {
    /// What a literal loads.
    LiteralOperation {
        /// Four bytes.
        Word = 0,
        /// Eight bytes.
        Double = 1,
        /// Four bytes, extended by their sign to eight.
        SignedWord = 2,
        /// Nothing: it is a prefetch.
        Prefetch = 3,
        /// Four bytes of a vector register.
        VectorWord = 4,
        /// Eight bytes of a vector register.
        VectorDouble = 5,
        /// All sixteen bytes of a vector register.
        VectorQuad = 6,
    }
}

named! {
    /// What a pair moves.
    PairOperation {
        /// Four bytes of each register.
        StoreWords = 0,
        /// Four bytes to each.
        LoadWords = 1,
        /// Four bytes to each, extended by their sign to eight.
        LoadSignedWords = 3,
        /// Eight bytes of each.
        StoreDoubles = 4,
        /// Eight bytes to each.
        LoadDoubles = 5,
        /// Four bytes of each vector register.
        StoreVectorWords = 8,
        /// Four bytes to each vector register.
        LoadVectorWords = 9,
        /// Eight bytes of each vector register.
        StoreVectorDoubles = 10,
        /// Eight bytes to each vector register.
        LoadVectorDoubles = 11,
        /// All sixteen bytes of each vector register.
        StoreVectorQuads = 12,
        /// All sixteen bytes to each vector register.
        LoadVectorQuads = 13,
    }
}

named! {
    /// What a word moves that has one register and an address by a base: families [`Ordered`](Family::Ordered) to
    /// [`Unsigned`](Family::Unsigned). A signed load extends to 64 bits, or to 32.
    SizedOperation {
        /// One byte.
        StoreByte = 0,
        /// One byte.
        LoadByte = 1,
        /// One byte, by its sign to eight.
        LoadSignedByte64 = 2,
        /// One byte, by its sign to four.
        LoadSignedByte32 = 3,
        /// Two bytes.
        StoreHalf = 4,
        /// Two bytes.
        LoadHalf = 5,
        /// Two bytes, by their sign to eight.
        LoadSignedHalf64 = 6,
        /// Two bytes, by their sign to four.
        LoadSignedHalf32 = 7,
        /// Four bytes.
        StoreWord = 8,
        /// Four bytes.
        LoadWord = 9,
        /// Four bytes, by their sign to eight.
        LoadSignedWord64 = 10,
        /// Eight bytes.
        StoreDouble = 12,
        /// Eight bytes.
        LoadDouble = 13,
        /// Nothing: it is a prefetch.
        PrefetchHint = 14,
        /// One byte of a vector register.
        StoreVectorByte = 16,
        /// One byte to a vector register.
        LoadVectorByte = 17,
        /// All sixteen bytes of a vector register.
        StoreVectorQuad = 18,
        /// All sixteen bytes to a vector register.
        LoadVectorQuad = 19,
        /// Two bytes of a vector register.
        StoreVectorHalf = 20,
        /// Two bytes to a vector register.
        LoadVectorHalf = 21,
        /// Four bytes of a vector register.
        StoreVectorWord = 24,
        /// Four bytes to a vector register.
        LoadVectorWord = 25,
        /// Eight bytes of a vector register.
        StoreVectorDouble = 28,
        /// Eight bytes to a vector register.
        LoadVectorDouble = 29,
    }
}

named! {
    /// An exclusive, load-acquire or store-release form, of any size.
    ExclusiveOperation {
        /// Store-exclusive.
        Stxr = 0,
        /// Store-exclusive and store-release.
        Stlxr = 1,
        /// Load-exclusive.
        Ldxr = 2,
        /// Load-exclusive and load-acquire.
        Ldaxr = 3,
        /// Store-release.
        Stlr = 5,
        /// Load-acquire.
        Ldar = 7,
    }
}

/// What an instruction does, by its family: [`Numbers::operation`](crate::Numbers::operation).
#[derive(Clone, Copy, Debug, PartialEq, Eq, PartialOrd, Ord, Hash)]
#[non_exhaustive]
pub enum Operation {
    /// Of [`Family::Literal`].
    Literal(LiteralOperation),
    /// Of [`Family::Pair`].
    Pair(PairOperation),
    /// Of [`Family::Ordered`] to [`Family::Unsigned`].
    Sized(SizedOperation),
    /// Of [`Family::Exclusive`], with how many bytes it moves: 1, 2, 4 or 8.
    Exclusive(ExclusiveOperation, u32),
}

impl Operation {
    /// The number, as [`Numbers`](crate::Numbers) has it.
    pub const fn number(self) -> u32 {
        match self {
            Operation::Literal(operation) => operation.number(),
            Operation::Pair(operation) => operation.number(),
            Operation::Sized(operation) => operation.number(),
            Operation::Exclusive(operation, bytes) => operation.number() + 8 * bytes.trailing_zeros(),
        }
    }

    /// The one that has a number in a family.
    pub fn of_number(family: Family, number: u32) -> Option<Operation> {
        match family {
            Family::Literal => LiteralOperation::of_number(number).map(Operation::Literal),
            Family::Pair => PairOperation::of_number(number).map(Operation::Pair),
            Family::Exclusive => {
                let operation = ExclusiveOperation::of_number(number % 8)?;
                (number < 32).then_some(Operation::Exclusive(operation, 1 << (number / 8)))
            }
            _ => SizedOperation::of_number(number).map(Operation::Sized),
        }
    }
}

/// [`numbers`](Instruction::numbers) by name.
///
/// ```
/// use milestarling::{Direction, Extend, Family, Instruction, Operation, PairMode, PairOperation, SizedOperation};
///
/// # fn main() -> Result<(), milestarling::Refusal> {
/// let push: Instruction = "stp x29, x30, [sp, #-16]!".parse()?;
/// assert_eq!((push.family(), push.direction(), push.mode()), (Family::Pair, Direction::Store, Some(PairMode::Pre)));
/// assert_eq!(push.operation(), Operation::Pair(PairOperation::StoreDoubles));
///
/// let letter: Instruction = "ldrb w4, [x5, w2, uxtw]".parse()?;
/// assert_eq!((letter.family(), letter.extend()), (Family::Register, Some(Extend::Uxtw)));
/// assert_eq!(letter.operation(), Operation::Sized(SizedOperation::LoadByte));
/// # Ok(())
/// # }
/// ```
impl Instruction {
    /// How it names its address.
    pub fn family(self) -> Family {
        Family::of_number(self.numbers().family).expect("an allocated word has a family")
    }

    /// What it does.
    pub fn operation(self) -> Operation {
        Operation::of_number(self.family(), self.numbers().operation).expect("each operation of a family has a name")
    }

    /// Which way bytes go.
    pub fn direction(self) -> Direction {
        Direction::of_number(self.numbers().direction).expect("an access is a load, a store or none")
    }

    /// The mode of a pair.
    pub fn mode(self) -> Option<PairMode> {
        PairMode::of_number(self.numbers().mode).filter(|_| self.family() == Family::Pair)
    }

    /// How the index is extended, where there is one.
    pub fn extend(self) -> Option<Extend> {
        Extend::of_number(self.numbers().option).filter(|_| self.family() == Family::Register)
    }
}
