//! A host that runs compiled plugins: it does their arithmetic and branches itself, and leaves every word that touches
//! memory to the library, of which it takes no refusal for its own word. So it has the duty that the package's documents
//! name: it carries taints, byte by byte, through what it computes, and refuses a branch on a tainted value. It knows just the
//! words that a compiler made of `examples/plugin/plugin.c`.
//!
//! ```text
//! cargo run --release --example plugin ../../examples/plugin/compare.bin
//! ```
//!
//! runs the file with two passwords, and prints what a log would have of each run: the trace, and how it ended.

use milestarling::{touches_memory, Memory, Register, Session, Taint, Window};
use std::io::{self, Write};
use std::path::Path;
use std::{env, fs};

const GIVEN: u64 = 0x1000;
const KEYED: u64 = 0x1008;
const STORED: u64 = 0x1010;
const STACK: u64 = 0x1040;
const END: u64 = 0x7fff_fffc;
const LIMIT: usize = 1000;

const UNKNOWN: &str = "a word that this host doesn't know";

/// A value with its taint.
type Value = (u64, Taint);

/// What is computed of two byte by byte.
fn of_bytes(a: Value, b: Value, computed: impl Fn(u64, u64) -> u64) -> Value {
    (computed(a.0, b.0), a.1 | b.1)
}

/// The session, and the flag Z where it isn't tainted: no other is looked at here.
struct Host {
    session: Session,
    zero: Option<bool>,
}

impl Host {
    /// Register 31 is the zero register in all words here but add and sub of a number, where it is SP.
    fn get(&self, number: u32) -> Value {
        Register::x(number as u8).map_or((0, Taint::NONE), |register| self.session.get(register))
    }

    fn get_or_sp(&self, number: u32) -> Value {
        self.session.get(Register::x(number as u8).unwrap_or(Register::SP))
    }

    /// Sets a register to a result of 64 or 32 bits, and with flags those too.
    fn put(&mut self, word: u32, (bits, taint): Value, flags: bool, is_sp: bool) {
        let (bits, taint) = if word >> 31 == 0 { (bits & 0xffff_ffff, taint.word()) } else { (bits, taint) };
        if flags {
            self.zero = taint.is_none().then_some(bits == 0);
        }
        let sp = (is_sp && !flags).then_some(Register::SP);
        if let Some(register) = Register::x((word & 31) as u8).or(sp) {
            self.session.set(register, bits, taint);
        }
    }

    /// Does one word that doesn't touch memory.
    fn compute(&mut self, word: u32) -> Result<(), &'static str> {
        let pc = self.session.pc();
        let (n, m, number) = (word >> 5 & 31, word >> 16 & 31, u64::from(word >> 10 & 0xfff));
        let operation = word >> 29 & 3;
        let (subtract, flags) = (operation & 2 != 0, operation & 1 != 0);
        // Carries go upwards, and so do taints.
        let sum = |a: Value, b: Value| {
            (if subtract { a.0.wrapping_sub(b.0) } else { a.0.wrapping_add(b.0) }, (a.1 | b.1).carried())
        };
        if word & 0x1f20_fc00 == 0x0a00_0000 {
            // and, orr, eor of registers, not shifted
            let result = match operation {
                0 => of_bytes(self.get(n), self.get(m), |a, b| a & b),
                1 => of_bytes(self.get(n), self.get(m), |a, b| a | b),
                2 => of_bytes(self.get(n), self.get(m), |a, b| a ^ b),
                _ => return Err(UNKNOWN),
            };
            self.put(word, result, false, false);
        } else if word & 0x1fe0_fc00 == 0x0b00_0000 {
            // add, sub, cmp of registers, not shifted
            self.put(word, sum(self.get(n), self.get(m)), flags, false);
        } else if word & 0x1fc0_0000 == 0x1100_0000 {
            // add, sub, cmp of a register and a number
            self.put(word, sum(self.get_or_sp(n), (number, Taint::NONE)), flags, true);
        } else if word & 0xffff_0000 == 0x9240_0000 && word & 0xfc00 != 0xfc00 {
            // and with the lowest so many bits
            let mask = (2 << (word >> 10 & 63)) - 1;
            self.put(word, of_bytes(self.get(n), (mask, Taint::NONE), |a, b| a & b), false, true);
        } else if word & 0x7fe0_0000 == 0x5280_0000 {
            // mov of a number
            self.put(word, (u64::from(word >> 5 & 0xffff), Taint::NONE), false, false);
        } else if word & 0xff00_001e == 0x5400_0000 {
            // b.eq, b.ne
            let taken = self.zero.ok_or("a branch on a tainted value")? != (word & 1 != 0);
            let offset = i64::from((word << 8) as i32 >> 13) * 4;
            self.session.set_pc(pc.wrapping_add(if taken { offset as u64 } else { 4 }));
            return Ok(());
        } else if word & 0xffff_fc1f == 0xd65f_0000 {
            // ret
            let (address, taint) = self.get(n);
            if !taint.is_none() {
                return Err("a return to a tainted address");
            }
            self.session.set_pc(address);
            return Ok(());
        } else {
            return Err(UNKNOWN);
        }
        self.session.set_pc(pc.wrapping_add(4));
        Ok(())
    }
}

/// A call of a plugin's function, with a password that is given, a doubleword of which the first byte is secret, a password
/// that is stored, and a stack.
fn begin(password: &[u8; 8]) -> (Host, Memory<Vec<u8>, Vec<u8>>) {
    let mut memory = Memory::zeroed(Window::at(GIVEN), (STACK - GIVEN) as usize);
    let mut put = |address, bytes: &[u8], tainted| memory.write(address, bytes, tainted).expect("it has a place");
    put(GIVEN, password, true);
    put(KEYED, &password[..1], true);
    put(KEYED + 1, &[3], false);
    put(STORED, b"sesame42", true);
    let mut session = Session::new();
    let arguments = [(Register::X0, GIVEN), (Register::X1, STORED), (Register::X2, 8)];
    for (register, value) in arguments.into_iter().chain([(Register::X30, END), (Register::SP, STACK)]) {
        session.set(register, value, Taint::NONE);
    }
    (Host { session, zero: Some(false) }, memory)
}

/// Runs a plugin's words until it returns, and writes the trace.
fn run(words: &[u32], password: &[u8; 8], log: &mut impl Write) -> io::Result<()> {
    let (mut host, mut memory) = begin(password);
    for _ in 0..LIMIT {
        let pc = host.session.pc();
        if pc == END {
            return writeln!(log, " returned, x0 is {}", host.session.shown(Register::X0));
        }
        let Some(&word) = words.get((pc / 4) as usize).filter(|_| pc % 4 == 0) else {
            return writeln!(log, " no word at {pc}");
        };
        if !touches_memory(word) {
            if let Err(refused) = host.compute(word) {
                return writeln!(log, " refused at {pc:x}: {refused}");
            }
            continue;
        }
        match host.session.step(&mut memory, word) {
            Ok(step) => write!(log, " {}@{:x}", step.access.code, step.access.address)?,
            Err(refusal) => return writeln!(log, " refused at {pc:x}: {}", refusal.answer()),
        }
    }
    writeln!(log, " more than {LIMIT} words")
}

fn main() -> io::Result<()> {
    let mut log = io::stdout().lock();
    for name in env::args().skip(1) {
        let words: Vec<u32> = milestarling::words(&fs::read(&name)?, 0).map(|(_, word, _)| word).collect();
        for password in [b"sesame42", b"open1234"] {
            write!(log, "{}:", Path::new(&name).file_name().unwrap_or_default().to_string_lossy())?;
            run(&words, password, &mut log)?;
        }
    }
    Ok(())
}
