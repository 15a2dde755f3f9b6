//! The text of a [`Past`], which has a statement a line and no value.

use crate::{Access, Past, Register, Start, Taint, VectorRegister, VectorTaint, Window};
use std::error::Error;
use std::fmt;
use std::str::FromStr;

/// The first line of every text.
const HEADING: &str = "milestarling trace 1";

/// The most bytes of memory that a text may have.
const MEMORY_MAX: u64 = 1 << 30;

impl Past {
    /// Whether a text is that of a past, by its first line that is neither empty nor a comment: of any other,
    /// [`FromStr`] says only that this line is missing.
    pub fn is_text(text: &str) -> bool {
        statements(text).next().is_some_and(|(_, line)| line == HEADING)
    }
}

/// The lines that are neither empty nor comments, with their numbers from 1.
fn statements(text: &str) -> impl Iterator<Item = (usize, &str)> {
    let lines = text.lines().enumerate().map(|(at, line)| (at + 1, line.trim()));
    lines.filter(|(_, line)| !line.is_empty() && !line.starts_with('#'))
}

/// The text: the first line `milestarling trace 1`, and then
///
/// - `origin`, `readonly`, `length` and `pc`, each with a number: where memory is, and the program counter at the start;
/// - `taints` with a number, only where there isn't one taint byte for each byte of memory;
/// - `tainted x2`, `tainted x2.0-3,7`, `tainted q5.0`: a register or a vector register that was tainted at the start, all of it
///   or these bytes;
/// - `tainted 0x1000 8`: so many bytes of memory, from this address on, that were;
/// - `step 39400002 1 0x1000 0`: a step done, by its word, its code, its address and its status;
/// - `word 386268a4`: a word behind them, of which the first is the one that was refused.
///
/// Numbers are in decimal or after 0x in hexadecimal, and words in hexadecimal. Lines that begin with `#` are comments.
///
/// ```
/// use milestarling::{Memory, Past, Register, Session, Taint, Window};
///
/// let mut session = Session::new();
/// session.set(Register::X0, 0x1000, Taint::NONE);
/// session.set(Register::X2, 7, Taint::bytes(..4));
/// let mut memory = Memory::zeroed(Window::at(0x1000), 16);
/// let (past, _) = Past::run(&mut session, &mut memory, &[0x39000002, 0x38626804]); // strb w2, [x0]; ldrb w4, [x0, x2]
/// let text = "\
/// milestarling trace 1
/// origin 0x1000
/// readonly 0
/// length 16
/// pc 0x0
/// tainted x2.0-3
/// step 39000002 65 0x1000 0
/// word 38626804
/// ";
/// assert_eq!(past.to_string(), text);
/// assert_eq!(text.parse(), Ok(past));
/// ```
impl fmt::Display for Past {
    fn fmt(&self, f: &mut fmt::Formatter<'_>) -> fmt::Result {
        let Start { window, length, pc, taint, .. } = &self.start;
        writeln!(f, "{HEADING}\norigin {:#x}\nreadonly {}", window.origin, window.readonly)?;
        writeln!(f, "length {length}\npc {pc:#x}")?;
        if taint.len() as u64 != *length {
            writeln!(f, "taints {}", taint.len())?;
        }
        self.start.write_registers(f)?;
        self.start.write_memory(f)?;
        for ((word, access), status) in self.words.iter().zip(&self.trace).zip(&self.statuses) {
            writeln!(f, "step {word:08x} {} {:#x} {status}", access.code, access.address)?;
        }
        self.words[self.steps()..].iter().try_for_each(|word| writeln!(f, "word {word:08x}"))
    }
}

impl Start {
    fn write_registers(&self, f: &mut fmt::Formatter<'_>) -> fmt::Result {
        for register in Register::all() {
            match self.register(register) {
                Taint::NONE => {}
                Taint::ALL => writeln!(f, "tainted {register}")?,
                taint => writeln!(f, "tainted {register}.{taint}")?,
            }
        }
        for register in VectorRegister::all() {
            match self.vector(register) {
                VectorTaint::NONE => {}
                VectorTaint::ALL => writeln!(f, "tainted {register}")?,
                taint => writeln!(f, "tainted {register}.{taint}")?,
            }
        }
        Ok(())
    }

    /// A line for each stretch of tainted bytes.
    fn write_memory(&self, f: &mut fmt::Formatter<'_>) -> fmt::Result {
        let mut at = 0;
        while let Some(first) = self.taint[at..].iter().position(|&byte| byte != 0) {
            at += first;
            let length = self.taint[at..].iter().take_while(|&&byte| byte != 0).count();
            writeln!(f, "tainted {:#x} {length}", self.window.origin.wrapping_add(at as u64))?;
            at += length;
        }
        Ok(())
    }
}

/// Why a text is no past's, with the number of its line, from 1.
#[derive(Clone, Debug, PartialEq, Eq)]
pub struct BadTraceText {
    line: usize,
    said: String,
}

impl BadTraceText {
    /// The line; that behind the last where something is missing.
    pub const fn line(&self) -> usize {
        self.line
    }
}

impl fmt::Display for BadTraceText {
    fn fmt(&self, f: &mut fmt::Formatter<'_>) -> fmt::Result {
        write!(f, "line {}: {}", self.line, self.said)
    }
}

impl Error for BadTraceText {}

/// Reads what a past shows itself as, with comments and empty lines between, and of memory of up to 2^30 bytes.
impl FromStr for Past {
    type Err = BadTraceText;

    fn from_str(text: &str) -> Result<Past, BadTraceText> {
        let mut lines = statements(text);
        match lines.next() {
            Some((_, HEADING)) => {}
            other => {
                let line = other.map_or_else(|| text.lines().count() + 1, |(line, _)| line);
                return Err(BadTraceText { line, said: format!("a trace begins with the line `{HEADING}`") });
            }
        }
        let mut reading = Reading::default();
        for (line, statement) in lines {
            reading.line = line;
            reading.take(statement).map_err(|said| BadTraceText { line, said })?;
        }
        reading.finish()
    }
}

/// The statements that were read so far.
#[derive(Default)]
struct Reading {
    line: usize,
    /// Those that may be given once, by their names.
    given: Vec<(String, u64)>,
    registers: [Taint; 32],
    vectors: [VectorTaint; 32],
    /// Stretches of memory: the line, the address, and how many bytes.
    memory: Vec<(usize, u64, u64)>,
    words: Vec<u32>,
    trace: Vec<Access>,
    statuses: Vec<u8>,
}

impl Reading {
    fn take(&mut self, statement: &str) -> Result<(), String> {
        let words: Vec<&str> = statement.split_whitespace().collect();
        match words[..] {
            [name @ ("origin" | "readonly" | "length" | "taints" | "pc"), value] => self.give(name, number(value)?),
            ["tainted", register] => self.taint(register),
            ["tainted", address, length] => {
                self.memory.push((self.line, number(address)?, number(length)?));
                Ok(())
            }
            ["step", word, code, address, status] => {
                if self.words.len() > self.trace.len() {
                    return Err("a step behind a word that wasn't done".into());
                }
                let status = number(status)?.try_into().map_err(|_| format!("`{status}` is no status"))?;
                self.trace.push(Access { code: number(code)?, address: number(address)? });
                self.statuses.push(status);
                self.words.push(hexadecimal(word)?);
                Ok(())
            }
            ["step", ..] => Err("a step has a word, a code, an address and a status".into()),
            ["word", word] => {
                self.words.push(hexadecimal(word)?);
                Ok(())
            }
            _ => Err(format!("`{statement}` is no statement of a trace")),
        }
    }

    fn give(&mut self, name: &str, value: u64) -> Result<(), String> {
        if self.given.iter().any(|(given, _)| given == name) {
            return Err(format!("`{name}` is given twice"));
        }
        if matches!(name, "length" | "taints") && value > MEMORY_MAX {
            return Err(format!("memory of more than {MEMORY_MAX} bytes"));
        }
        self.given.push((name.into(), value));
        Ok(())
    }

    /// A register, all of it or the bytes that are named behind a point.
    fn taint(&mut self, text: &str) -> Result<(), String> {
        let (name, bytes) = text.split_once('.').map_or((text, None), |(name, bytes)| (name, Some(bytes)));
        if let Ok(register) = name.parse::<Register>() {
            let taint = bytes.map_or(Ok(Taint::ALL), str::parse);
            self.registers[register.number() as usize] |= taint.map_err(|error| error.to_string())?;
        } else if let Ok(register) = name.parse::<VectorRegister>() {
            let taint = bytes.map_or(Ok(VectorTaint::ALL), str::parse);
            self.vectors[register.number() as usize] |= taint.map_err(|error| error.to_string())?;
        } else {
            return Err(format!("`{text}` is no register, nor an address with a number of bytes"));
        }
        Ok(())
    }

    fn given(&self, name: &str) -> Option<u64> {
        self.given.iter().find(|(given, _)| given == name).map(|&(_, value)| value)
    }

    fn finish(self) -> Result<Past, BadTraceText> {
        let number = |name| self.given(name).unwrap_or(0);
        let window = Window { origin: number("origin"), readonly: number("readonly") };
        let length = number("length");
        let taints = self.given("taints").unwrap_or(length);
        let mut start = Start::clean(window, length, number("pc"));
        start.taint = vec![0; taints as usize];
        for (line, address, bytes) in self.memory {
            let first = address.wrapping_sub(window.origin);
            let Some(end) = first.checked_add(bytes).filter(|&end| end <= taints) else {
                return Err(BadTraceText { line, said: "these bytes aren't all in memory".into() });
            };
            start.taint[first as usize..end as usize].fill(1);
        }
        start.registers = self.registers;
        start.vectors = self.vectors.map(|taint| [taint.low(), taint.high()]);
        Ok(Past { start, words: self.words, trace: self.trace, statuses: self.statuses })
    }
}

/// A number of 64 bits, in decimal or after 0x in hexadecimal.
fn number(text: &str) -> Result<u64, String> {
    let (digits, radix) = text.strip_prefix("0x").map_or((text, 10), |digits| (digits, 16));
    // A sign is no digit, though Rust takes one.
    let number = (!digits.starts_with('+')).then(|| u64::from_str_radix(digits, radix).ok()).flatten();
    number.ok_or_else(|| format!("`{text}` is no number of 64 bits"))
}

/// A word of up to eight hexadecimal digits.
fn hexadecimal(text: &str) -> Result<u32, String> {
    let fits = text.len() <= 8 && text.bytes().all(|digit| digit.is_ascii_hexdigit());
    let word = fits.then(|| u32::from_str_radix(text, 16).ok()).flatten();
    word.ok_or_else(|| format!("`{text}` is no word of one to eight hexadecimal digits"))
}
