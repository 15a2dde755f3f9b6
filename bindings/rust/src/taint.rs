use std::error::Error;
use std::fmt;
use std::ops::{BitOr, BitOrAssign, RangeBounds, RangeInclusive};
use std::str::FromStr;

/// Which of a register's eight bytes are secret, or came of a secret. Byte 0 is the lowest.
///
/// It is no number and no `bool`, so that nobody says 1 or `true` for a secret and means some other bytes by it: [`NONE`],
/// [`ALL`] and [`bytes`] make one.
///
/// ```
/// use milestarling::Taint;
///
/// let taint = Taint::bytes(0..2) | Taint::bytes(5..=5);
/// assert!(taint.contains(1) && !taint.contains(2));
/// assert_eq!(format!("{taint:?}"), "Taint(00100011)");
/// assert_eq!((taint.to_string().as_str(), "0-1,5".parse()), ("0-1,5", Ok(taint)));
/// assert_eq!(taint | Taint::ALL, Taint::ALL);
/// assert_eq!(taint | Taint::NONE, taint);
/// ```
///
/// Neither of these compiles:
///
/// ```compile_fail,E0308
/// milestarling::Session::new().set(milestarling::Register::X2, 5, true);
/// ```
///
/// ```compile_fail,E0308
/// milestarling::raw::SessionRecord::default().value_taint[2] = 1;
/// ```
///
/// # What a host computes
///
/// A load copies the taints of its bytes. The sign copies above them take that of the top byte loaded, up to byte 3 in a load
/// to 32 bits, and cleared bytes have none. A store copies the taints of the bytes that it stores. A base that is written
/// back and a status have none.
///
/// What the host computes by itself, it taints by itself. To taint more is safe, to taint less isn't:
///
/// - mov copies the taint, and a number that stands in the word has none.
/// - and, orr, eor, bic, mvn, and csel by untainted flags: a byte where it is tainted in an operand, `a | b`.
/// - add, sub, mul, and a shift to the left by an untainted amount: every byte from the lowest on that is tainted in an
///   operand, since carries go upwards, `(a | b).carried()`.
/// - everything else: [`ALL`], where any byte of an operand is tainted. That holds of a shift to the right too, which moves
///   bytes downwards, of a rotation, a bit field, a division, the upper half of a product, a count of bits, a shift by a
///   tainted amount, and of what reads tainted flags (csel, adc).
/// - An operand that the word shifts or extends by itself (`and x0, x1, x2, lsr #8`) has the taint of that shift.
/// - A result of 32 bits has the low four of these, [`word`]: its upper four bytes are cleared.
/// - Flags are tainted where any byte of the result is, be the result dropped (cmp, tst) or not.
/// - On vector registers, which have a [`VectorTaint`], the same holds of each element by itself. What only moves bytes (mov, dup,
///   ins, umov, fmov, ext, zip, rev) moves their taints, what mixes elements (addv, tbl, a round of a cipher or a digest)
///   taints all sixteen bytes, and the bytes above a shorter result are cleared.
///
/// [`NONE`]: Taint::NONE
/// [`ALL`]: Taint::ALL
/// [`bytes`]: Taint::bytes
/// [`word`]: Taint::word
// The library's number, in which any byte but 0 is a taint.
#[repr(transparent)]
#[derive(Clone, Copy, Default, PartialEq, Eq, Hash)]
pub struct Taint(u64);

impl Taint {
    /// No byte.
    pub const NONE: Taint = Taint(0);
    /// Every byte.
    pub const ALL: Taint = Taint(0x0101_0101_0101_0101);

    /// These bytes, of 0 to 7; there are none above.
    pub fn bytes(range: impl RangeBounds<usize>) -> Taint {
        Taint((0..8).filter(|byte| range.contains(byte)).map(|byte| 1 << (8 * byte)).sum())
    }

    /// Whether a byte is tainted; there are none above 7.
    pub const fn contains(self, byte: usize) -> bool {
        byte < 8 && self.0 >> (8 * byte) & 0xff != 0
    }

    /// Whether no byte is tainted.
    pub const fn is_none(self) -> bool {
        self.0 == 0
    }

    /// Every byte from the lowest tainted one on: of a sum, a difference, a product and a shift to the left.
    #[must_use]
    pub const fn carried(self) -> Taint {
        match self.0 {
            0 => Taint::NONE,
            bytes => Taint(Taint::ALL.0 << (bytes.trailing_zeros() / 8 * 8)),
        }
    }

    /// The low four bytes: of a result of 32 bits, whose upper four are 0.
    #[must_use]
    pub const fn word(self) -> Taint {
        Taint(self.0 & 0xffff_ffff)
    }

    /// The taint of a number as the library has it: byte i is that of byte i of the value, and any but 0 is a taint. Taints are
    /// equal where their numbers are, and all that are made in another way have bytes of 0 and 1 alone.
    pub const fn from_raw(bytes: u64) -> Taint {
        Taint(bytes)
    }

    /// The number.
    pub const fn to_raw(self) -> u64 {
        self.0
    }

    /// The same taint with bytes of 0 and 1 alone.
    pub(crate) const fn normal(self) -> Taint {
        let four = self.0 | self.0 >> 4;
        let two = four | four >> 2;
        Taint((two | two >> 1) & Taint::ALL.0)
    }
}

impl BitOr for Taint {
    type Output = Taint;

    fn bitor(self, other: Taint) -> Taint {
        Taint(self.0 | other.0)
    }
}

impl BitOrAssign for Taint {
    fn bitor_assign(&mut self, other: Taint) {
        *self = *self | other;
    }
}

/// A digit for each byte, the highest first.
impl fmt::Debug for Taint {
    fn fmt(&self, f: &mut fmt::Formatter<'_>) -> fmt::Result {
        write!(f, "Taint({})", digits(8, |byte| self.contains(byte)))
    }
}

/// The bytes, parted by commas, those beside each other as the first and the last (`0-3,7`): nothing where none is tainted.
impl fmt::Display for Taint {
    fn fmt(&self, f: &mut fmt::Formatter<'_>) -> fmt::Result {
        f.pad(&ranges(8, |byte| self.contains(byte)))
    }
}

/// At least one byte of 0 to 7, as they are shown, in any order.
impl FromStr for Taint {
    type Err = UnknownByte;

    fn from_str(text: &str) -> Result<Taint, UnknownByte> {
        text.split(',').try_fold(Taint::NONE, |taint, part| Ok(taint | Taint::bytes(range(part, 8)?)))
    }
}

/// Which of a vector register's sixteen bytes are secret, or came of a secret: a [`Taint`] for each of its halves. Byte 0 is the
/// lowest.
///
/// ```
/// use milestarling::{Taint, VectorTaint};
///
/// let taint = VectorTaint::bytes(7..9) | VectorTaint::bytes(15..);
/// assert_eq!((taint.low(), taint.high()), (Taint::bytes(7..), Taint::bytes(..1) | Taint::bytes(7..)));
/// assert_eq!(VectorTaint::halves(Taint::NONE, Taint::ALL), VectorTaint::bytes(8..));
/// assert_eq!(format!("{taint:?}"), "VectorTaint(1000000110000000)");
/// assert_eq!((taint.to_string().as_str(), "7-8,15".parse()), ("7-8,15", Ok(taint)));
/// assert!(taint.contains(8) && !taint.contains(9));
/// ```
///
/// Neither a number nor the taint of a general register is one:
///
/// ```compile_fail,E0308
/// milestarling::Vectors::new().set(milestarling::VectorRegister::V2, 5, 1);
/// ```
///
/// ```compile_fail,E0308
/// milestarling::Vectors::new().set(milestarling::VectorRegister::V2, 5, milestarling::Taint::ALL);
/// ```
#[derive(Clone, Copy, Default, PartialEq, Eq, Hash)]
pub struct VectorTaint {
    low: Taint,
    high: Taint,
}

impl VectorTaint {
    /// No byte.
    pub const NONE: VectorTaint = VectorTaint::halves(Taint::NONE, Taint::NONE);
    /// Every byte.
    pub const ALL: VectorTaint = VectorTaint::halves(Taint::ALL, Taint::ALL);

    /// These bytes, of 0 to 15; there are none above.
    pub fn bytes(range: impl RangeBounds<usize>) -> VectorTaint {
        let half = |first: usize| {
            let bytes = (0..8).filter(|byte| range.contains(&(first + byte)));
            bytes.fold(Taint::NONE, |taint, byte| taint | Taint::bytes(byte..=byte))
        };
        VectorTaint::halves(half(0), half(8))
    }

    /// The low half's bytes, 0 to 7, and the high one's, 8 to 15.
    pub const fn halves(low: Taint, high: Taint) -> VectorTaint {
        VectorTaint { low, high }
    }

    /// Bytes 0 to 7.
    pub const fn low(self) -> Taint {
        self.low
    }

    /// Bytes 8 to 15.
    pub const fn high(self) -> Taint {
        self.high
    }

    /// Whether a byte is tainted; there are none above 15.
    pub const fn contains(self, byte: usize) -> bool {
        self.low.contains(byte) || byte >= 8 && self.high.contains(byte - 8)
    }

    /// Whether no byte is tainted.
    pub const fn is_none(self) -> bool {
        self.low.is_none() && self.high.is_none()
    }
}

impl BitOr for VectorTaint {
    type Output = VectorTaint;

    fn bitor(self, other: VectorTaint) -> VectorTaint {
        VectorTaint::halves(self.low | other.low, self.high | other.high)
    }
}

impl BitOrAssign for VectorTaint {
    fn bitor_assign(&mut self, other: VectorTaint) {
        *self = *self | other;
    }
}

/// A digit for each byte, the highest first.
impl fmt::Debug for VectorTaint {
    fn fmt(&self, f: &mut fmt::Formatter<'_>) -> fmt::Result {
        write!(f, "VectorTaint({})", digits(16, |byte| self.contains(byte)))
    }
}

/// As a [`Taint`] is shown.
impl fmt::Display for VectorTaint {
    fn fmt(&self, f: &mut fmt::Formatter<'_>) -> fmt::Result {
        f.pad(&ranges(16, |byte| self.contains(byte)))
    }
}

/// At least one byte of 0 to 15, as they are shown, in any order.
impl FromStr for VectorTaint {
    type Err = UnknownByte;

    fn from_str(text: &str) -> Result<VectorTaint, UnknownByte> {
        text.split(',').try_fold(VectorTaint::NONE, |taint, part| Ok(taint | VectorTaint::bytes(range(part, 16)?)))
    }
}

/// A part of a taint's text that names no bytes.
#[derive(Clone, Debug, PartialEq, Eq)]
pub struct UnknownByte {
    part: String,
    size: usize,
}

impl fmt::Display for UnknownByte {
    fn fmt(&self, f: &mut fmt::Formatter<'_>) -> fmt::Result {
        let UnknownByte { part, size } = self;
        write!(f, "`{part}` is neither a byte of a register, 0 to {}, nor bytes from one to another", size - 1)
    }
}

impl Error for UnknownByte {}

/// The bytes of a part of a text, of a register that has so many.
fn range(part: &str, size: usize) -> Result<RangeInclusive<usize>, UnknownByte> {
    let byte = |digits: &str| (0..size).find(|byte| byte.to_string() == digits);
    let (first, last) = part.split_once('-').unwrap_or((part, part));
    let bytes = byte(first).zip(byte(last)).filter(|(first, last)| first <= last);
    bytes.map(|(first, last)| first..=last).ok_or_else(|| UnknownByte { part: part.into(), size })
}

/// The tainted bytes of so many as a text.
fn ranges(size: usize, tainted: impl Fn(usize) -> bool) -> String {
    let starts = (0..size).filter(|&byte| tainted(byte) && (byte == 0 || !tainted(byte - 1)));
    let parts: Vec<String> = starts
        .map(|first| match (first..size).take_while(|&byte| tainted(byte)).last() {
            Some(last) if last != first => format!("{first}-{last}"),
            _ => first.to_string(),
        })
        .collect();
    parts.join(",")
}

/// 1 for each byte that is tainted and 0 for any other, the highest first.
fn digits(bytes: usize, tainted: impl Fn(usize) -> bool) -> String {
    (0..bytes).rev().map(|byte| if tainted(byte) { '1' } else { '0' }).collect()
}
