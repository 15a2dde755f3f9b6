//! "Lines of text", from the line to the word.
//!
//! A line is taken apart by its grammar, from left to right, and every piece has exactly one spelling. Nothing is
//! printed and compared, so that a fault of the writer can't hide in the reader.

use super::NO_SUCH_TEXT;
use Kind::*;

#[derive(Clone, Copy, PartialEq)]
enum Kind {
    Plain,
    Unscaled,
    Ordered,
    Pair,
    NoAllocatePair,
    Exclusive,
    StoreExclusive,
}

/// A mnemonic, with the registers that it takes: W, X, vectors, several of these, or the hint of a prefetch.
struct Name {
    text: &'static str,
    kind: Kind,
    /// Size and opc where W, X or a hint is the first operand; for a pair only opc, and L. For the ninth family size, and
    /// bits 23, 22 and 15 side by side; a store-exclusive's first operand is its second, behind the status.
    w: Option<(u32, u32)>,
    x: Option<(u32, u32)>,
    hint: Option<(u32, u32)>,
    /// Whether it loads, where a vector is the first operand.
    vector: Option<u32>,
}

const fn name(text: &'static str, kind: Kind, w: Option<(u32, u32)>, x: Option<(u32, u32)>) -> Name {
    Name { text, kind, w, x, hint: None, vector: None }
}

const fn prefetch(text: &'static str, kind: Kind) -> Name {
    Name { text, kind, w: None, x: None, hint: Some((3, 2)), vector: None }
}

/// One that takes W, X and every vector, and loads or stores all of it.
const fn whole(text: &'static str, kind: Kind, load: u32) -> Name {
    let (w, x) = if matches!(kind, Pair | NoAllocatePair) { (0, 2) } else { (2, 3) };
    Name { text, kind, w: Some((w, load)), x: Some((x, load)), hint: None, vector: Some(load) }
}

const NAMES: [Name; 52] = [
    name("strb", Plain, Some((0, 0)), None),
    name("ldrb", Plain, Some((0, 1)), None),
    name("ldrsb", Plain, Some((0, 3)), Some((0, 2))),
    name("strh", Plain, Some((1, 0)), None),
    name("ldrh", Plain, Some((1, 1)), None),
    name("ldrsh", Plain, Some((1, 3)), Some((1, 2))),
    whole("str", Plain, 0),
    whole("ldr", Plain, 1),
    name("ldrsw", Plain, None, Some((2, 2))),
    prefetch("prfm", Plain),
    name("sturb", Unscaled, Some((0, 0)), None),
    name("ldurb", Unscaled, Some((0, 1)), None),
    name("ldursb", Unscaled, Some((0, 3)), Some((0, 2))),
    name("sturh", Unscaled, Some((1, 0)), None),
    name("ldurh", Unscaled, Some((1, 1)), None),
    name("ldursh", Unscaled, Some((1, 3)), Some((1, 2))),
    whole("stur", Unscaled, 0),
    whole("ldur", Unscaled, 1),
    name("ldursw", Unscaled, None, Some((2, 2))),
    prefetch("prfum", Unscaled),
    name("stlurb", Ordered, Some((0, 0)), None),
    name("ldapurb", Ordered, Some((0, 1)), None),
    name("ldapursb", Ordered, Some((0, 3)), Some((0, 2))),
    name("stlurh", Ordered, Some((1, 0)), None),
    name("ldapurh", Ordered, Some((1, 1)), None),
    name("ldapursh", Ordered, Some((1, 3)), Some((1, 2))),
    name("stlur", Ordered, Some((2, 0)), Some((3, 0))),
    name("ldapur", Ordered, Some((2, 1)), Some((3, 1))),
    name("ldapursw", Ordered, None, Some((2, 2))),
    // Of a pair: opc and L.
    whole("stp", Pair, 0),
    whole("ldp", Pair, 1),
    name("ldpsw", Pair, None, Some((1, 1))),
    whole("stnp", NoAllocatePair, 0),
    whole("ldnp", NoAllocatePair, 1),
    name("stxrb", StoreExclusive, Some((0, 0b000)), None),
    name("stxrh", StoreExclusive, Some((1, 0b000)), None),
    name("stxr", StoreExclusive, Some((2, 0b000)), Some((3, 0b000))),
    name("stlxrb", StoreExclusive, Some((0, 0b001)), None),
    name("stlxrh", StoreExclusive, Some((1, 0b001)), None),
    name("stlxr", StoreExclusive, Some((2, 0b001)), Some((3, 0b001))),
    name("ldxrb", Exclusive, Some((0, 0b010)), None),
    name("ldxrh", Exclusive, Some((1, 0b010)), None),
    name("ldxr", Exclusive, Some((2, 0b010)), Some((3, 0b010))),
    name("ldaxrb", Exclusive, Some((0, 0b011)), None),
    name("ldaxrh", Exclusive, Some((1, 0b011)), None),
    name("ldaxr", Exclusive, Some((2, 0b011)), Some((3, 0b011))),
    name("stlrb", Exclusive, Some((0, 0b101)), None),
    name("stlrh", Exclusive, Some((1, 0b101)), None),
    name("stlr", Exclusive, Some((2, 0b101)), Some((3, 0b101))),
    name("ldarb", Exclusive, Some((0, 0b111)), None),
    name("ldarh", Exclusive, Some((1, 0b111)), None),
    name("ldar", Exclusive, Some((2, 0b111)), Some((3, 0b111))),
];

/// What is left of a line.
struct Scanner<'a>(&'a [u8]);

impl<'a> Scanner<'a> {
    fn takes(&mut self, piece: &str) -> bool {
        match self.0.strip_prefix(piece.as_bytes()) {
            None => false,
            Some(rest) => {
                self.0 = rest;
                true
            }
        }
    }

    fn expect(&mut self, piece: &str) -> Option<()> {
        self.takes(piece).then_some(())
    }

    /// Decimal digits without a leading zero.
    fn natural(&mut self) -> Option<i64> {
        let digits = self.0.iter().take_while(|byte| byte.is_ascii_digit()).count();
        let (number, rest) = self.0.split_at(digits);
        if digits == 0 || digits > 1 && number[0] == b'0' {
            return None;
        }
        self.0 = rest;
        // More digits than any offset has are a number that is out of every range.
        std::str::from_utf8(number).ok()?.parse().ok()
    }

    /// A number with its sign. There is no negative zero.
    fn integer(&mut self) -> Option<i64> {
        self.expect("#")?;
        if !self.takes("-") {
            return self.natural();
        }
        self.natural().filter(|&number| number != 0).map(|number| -number)
    }

    /// A register that is 0 where its number is 31: whether it is an X, and the number.
    fn data(&mut self) -> Option<(bool, u32)> {
        let wide = self.takes("x");
        if !wide {
            self.expect("w")?;
        }
        if self.takes("zr") {
            return Some((wide, 31));
        }
        let number = self.natural().filter(|&number| number <= 30)?;
        Some((wide, number as u32))
    }

    /// A vector register: the logarithm of the bytes that its letter says, and the number, of which 31 is like any other.
    fn vector(&mut self) -> Option<(u32, u32)> {
        let size = ["b", "h", "s", "d", "q"].iter().position(|letter| self.takes(letter))?;
        let number = self.natural().filter(|&number| number <= 31)?;
        Some((size as u32, number as u32))
    }

    fn base(&mut self) -> Option<u32> {
        if self.takes("sp") {
            return Some(31);
        }
        self.expect("x")?;
        self.natural().filter(|&number| number <= 30).map(|number| number as u32)
    }

    fn end(&self) -> Option<()> {
        self.0.is_empty().then_some(())
    }
}

/// A number that is a multiple of 2^scale and fits, divided, into a signed field of so many bits.
fn signed_field(number: i64, scale: u32, bits: u32) -> Option<u32> {
    let half = 1 << (bits - 1);
    let divided = number >> scale;
    (divided << scale == number && (-half..half).contains(&divided)).then_some(divided as u32 & ((1 << bits) - 1))
}

fn unsigned_field(number: i64, scale: u32, bits: u32) -> Option<u32> {
    let divided = number >> scale;
    (divided << scale == number && (0..1 << bits).contains(&divided)).then_some(divided as u32)
}

/// Where the access is, as the end of a line says it.
enum Place {
    /// `[x1]` or `[x1, #8]`.
    Offset(u32, i64),
    Post(u32, i64),
    Pre(u32, i64),
    /// Base, index, option, and the amount where one is shown.
    Index(u32, u32, u32, Option<i64>),
    Literal(i64),
}

fn place(scanner: &mut Scanner) -> Option<Place> {
    if !scanner.takes("[") {
        let offset = scanner.integer()?;
        scanner.end()?;
        return Some(Place::Literal(offset));
    }
    let base = scanner.base()?;
    let place = if scanner.takes("]") {
        if scanner.takes(", ") {
            Place::Post(base, scanner.integer()?)
        } else {
            Place::Offset(base, 0)
        }
    } else {
        scanner.expect(", ")?;
        if scanner.0.first() == Some(&b'#') {
            let offset = scanner.integer()?;
            scanner.expect("]")?;
            if scanner.takes("!") {
                Place::Pre(base, offset)
            } else if offset == 0 {
                // A zero isn't shown here.
                return None;
            } else {
                Place::Offset(base, offset)
            }
        } else {
            index(scanner, base)?
        }
    };
    scanner.end()?;
    Some(place)
}

fn index(scanner: &mut Scanner, base: u32) -> Option<Place> {
    let (wide, number) = scanner.data()?;
    if scanner.takes("]") {
        return wide.then_some(Place::Index(base, number, 0b011, None));
    }
    scanner.expect(", ")?;
    let option = if wide && scanner.takes("lsl") {
        0b011
    } else if wide && scanner.takes("sxtx") {
        0b111
    } else if !wide && scanner.takes("uxtw") {
        0b010
    } else if !wide && scanner.takes("sxtw") {
        0b110
    } else {
        return None;
    };
    let amount = if scanner.takes(" #") {
        Some(scanner.natural()?)
    } else if option == 0b011 {
        // An lsl is shown only with its amount.
        return None;
    } else {
        None
    };
    scanner.expect("]")?;
    Some(Place::Index(base, number, option, amount))
}

fn pair(scanner: &mut Scanner, kind: Kind, opc: u32, load: u32, wide: bool) -> Option<u32> {
    let (also_wide, second) = scanner.data()?;
    if also_wide != wide {
        return None;
    }
    let scale = if opc == 0b10 { 3 } else { 2 };
    Some(opc << 30 | paired(scanner, kind, load, scale)? | second << 10)
}

/// What stands behind the registers of a pair, whose offset is a multiple of 2^scale.
fn paired(scanner: &mut Scanner, kind: Kind, load: u32, scale: u32) -> Option<u32> {
    scanner.expect(", ")?;
    let (mode, base, offset) = match (kind, place(scanner)?) {
        (NoAllocatePair, Place::Offset(base, offset)) => (0b00, base, offset),
        (Pair, Place::Post(base, offset)) => (0b01, base, offset),
        (Pair, Place::Offset(base, offset)) => (0b10, base, offset),
        (Pair, Place::Pre(base, offset)) => (0b11, base, offset),
        _ => return None,
    };
    let offset = signed_field(offset, scale, 7)?;
    Some(0b101 << 27 | mode << 23 | load << 22 | offset << 15 | base << 5)
}

fn exclusive(size: u32, code: u32, status: u32, place: Place) -> Option<u32> {
    let Place::Offset(base, 0) = place else { return None };
    let rest = 0b001 << 27 | code >> 1 << 22 | (code & 1) << 15;
    Some(size << 30 | rest | status << 16 | 31 << 10 | base << 5)
}

fn single(kind: Kind, size: u32, opc: u32, place: Place) -> Option<u32> {
    let is_prefetch = (size, opc) == (3, 2);
    match (kind, place) {
        (_, Place::Post(..) | Place::Pre(..)) if is_prefetch => None,
        (Plain, Place::Literal(offset)) => {
            let opc = match (size, opc) {
                (2, 1) => 0b00,
                (3, 1) => 0b01,
                (2, 2) => 0b10,
                (3, 2) => 0b11,
                _ => return None,
            };
            Some(opc << 30 | 0b011 << 27 | signed_field(offset, 2, 19)? << 5)
        }
        (Ordered, Place::Offset(base, offset)) => {
            let top = size << 30 | 0b011 << 27 | 0b01 << 24 | opc << 22;
            Some(top | signed_field(offset, 0, 9)? << 12 | base << 5)
        }
        (kind, place) => based(kind, size << 30 | opc << 22, size, place),
    }
}

/// A word that begins with these bits, of the families that vectors have too and that have a base; 2^scale bytes move.
fn based(kind: Kind, top: u32, scale: u32, place: Place) -> Option<u32> {
    let top = top | 0b111 << 27;
    match (kind, place) {
        (Plain, Place::Offset(base, offset)) => {
            Some(top | 0b01 << 24 | unsigned_field(offset, scale, 12)? << 10 | base << 5)
        }
        (Plain, Place::Post(base, offset)) => Some(top | signed_field(offset, 0, 9)? << 12 | 0b01 << 10 | base << 5),
        (Plain, Place::Pre(base, offset)) => Some(top | signed_field(offset, 0, 9)? << 12 | 0b11 << 10 | base << 5),
        (Plain, Place::Index(base, number, option, amount)) => {
            let shifted = match amount {
                None => 0,
                Some(amount) if amount == scale as i64 => 1,
                Some(_) => return None,
            };
            let rest = number << 16 | option << 13 | shifted << 12 | 0b10 << 10 | base << 5;
            Some(top | 1 << 21 | rest)
        }
        (Unscaled, Place::Offset(base, offset)) => Some(top | signed_field(offset, 0, 9)? << 12 | base << 5),
        _ => None,
    }
}

/// The word of a line whose first operand is a vector, without that register.
fn of_vectors(scanner: &mut Scanner, kind: Kind, load: u32, size: u32) -> Option<u32> {
    let rest = if matches!(kind, Pair | NoAllocatePair) {
        let (also, second) = scanner.vector()?;
        if also != size || size < 2 {
            return None;
        }
        (size - 2) << 30 | paired(scanner, kind, load, size)? | second << 10
    } else {
        match place(scanner)? {
            Place::Literal(offset) if kind == Plain && load == 1 && size >= 2 => {
                (size - 2) << 30 | 0b011 << 27 | signed_field(offset, 2, 19)? << 5
            }
            Place::Literal(_) => return None,
            // 16 bytes have size 0, and the upper bit of opc.
            place if size == 4 => based(kind, (0b10 | load) << 22, size, place)?,
            place => based(kind, size << 30 | load << 22, size, place)?,
        }
    };
    Some(1 << 26 | rest)
}

/// A hint by the names of its three fields, or by its number where a field of two bits is 3.
fn hint(scanner: &mut Scanner) -> Option<u32> {
    if scanner.takes("#") {
        let number = scanner.natural().filter(|&number| number <= 31)? as u32;
        return (number >> 3 == 3 || number >> 1 & 0b11 == 3).then_some(number);
    }
    let kind = ["pld", "pli", "pst"].iter().position(|kind| scanner.takes(kind))?;
    let level = ["l1", "l2", "l3"].iter().position(|level| scanner.takes(level))?;
    let policy = ["keep", "strm"].iter().position(|policy| scanner.takes(policy))?;
    Some((kind << 3 | level << 1 | policy) as u32)
}

fn word_of(text: &[u8]) -> Option<u32> {
    let space = text.iter().position(|&byte| byte == b' ')?;
    let (mnemonic, rest) = text.split_at(space);
    let name = NAMES.iter().find(|name| name.text.as_bytes() == mnemonic)?;
    let mut scanner = Scanner(rest);
    scanner.expect(" ")?;
    if let Some((size, opc)) = name.hint {
        let hint = hint(&mut scanner)?;
        scanner.expect(", ")?;
        return Some(single(name.kind, size, opc, place(&mut scanner)?)? | hint);
    }
    if matches!(scanner.0.first(), Some(b'b' | b'h' | b's' | b'd' | b'q')) {
        let (size, register) = scanner.vector()?;
        scanner.expect(", ")?;
        return Some(of_vectors(&mut scanner, name.kind, name.vector?, size)? | register);
    }
    let mut status = 31;
    if name.kind == StoreExclusive {
        let (wide, number) = scanner.data()?;
        if wide {
            return None;
        }
        status = number;
        scanner.expect(", ")?;
    }
    let (wide, register) = scanner.data()?;
    let (size, opc) = if wide { name.x? } else { name.w? };
    scanner.expect(", ")?;
    let rest = match name.kind {
        Pair | NoAllocatePair => pair(&mut scanner, name.kind, size, opc, wide)?,
        Exclusive | StoreExclusive => exclusive(size, opc, status, place(&mut scanner)?)?,
        _ => single(name.kind, size, opc, place(&mut scanner)?)?,
    };
    Some(rest | register)
}

/// The word whose line this is: the answer and the word.
pub fn read(text: &[u8]) -> (u8, u32) {
    match word_of(text) {
        None => (NO_SUCH_TEXT, 0),
        Some(word) => (super::DONE, word),
    }
}
