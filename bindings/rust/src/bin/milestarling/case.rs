//! `milestarling run`: a case in a readable form.

use crate::call::Call;
use crate::import;
use crate::input::{Failure, Source};
use crate::places::{blame, shown_places, shown_word, tainted_by_steps, Region};
use crate::statements::{said, said_of_tainted};
use crate::turns::{Pair, Plugins};
use crate::{hexadecimal, number, run_json, wide_number};
use milestarling::{
    Access, Instruction, Memory, Monitor, Past, Place, Register, Session, Step, Taint, TaintedBytes, UnknownByte,
    VectorRegister, VectorTaint, Window,
};
use std::fmt::Display;
use std::fs;
use std::io::{self, Write};
use std::str::FromStr;

/// The most bytes of memory that a case may have.
pub const MEMORY_MAX: usize = 1 << 30;

/// What a case says.
#[derive(Default)]
pub struct Case {
    session: Session,
    window: Window,
    bytes: Vec<u8>,
    taint: Vec<u8>,
    words: Vec<u32>,
    plugins: Plugins,
}

/// What a case is run with.
pub enum Machine {
    /// A session, its memory, and the words to run.
    Alone(Box<Session>, Region, Vec<u32>),
    /// Two plugins and their turns.
    Pair(Box<Pair>),
}

impl Machine {
    /// Reads what `milestarling run` runs.
    pub fn read(source: &mut Source) -> Result<Machine, Failure> {
        let text = source.text()?;
        if Past::is_text(&text) {
            return Err(source.wrong("a trace, which has no values to run with: `milestarling why` tells of it"));
        }
        Case::read(source, &text)
    }
}

impl Case {
    /// Takes a whole text. A carriage return before a line's end is no part of the line.
    pub fn read(source: &Source, text: &str) -> Result<Machine, Failure> {
        let wrong = |line: usize, said: String| source.wrong(format!("line {line}: {said}"));
        let mut case = Case::default();
        for (at, line) in text.split('\n').enumerate() {
            let line = line.strip_suffix('\r').unwrap_or(line);
            if line.contains('\r') {
                return Err(wrong(at + 1, "a carriage return inside the line".into()));
            }
            case.statement(at + 1, line).map_err(|said| wrong(at + 1, said))?;
        }
        let line = case.plugins.line();
        case.machine().map_err(|said| wrong(line.unwrap_or(0), said))
    }

    /// What is run.
    fn machine(self) -> Result<Machine, String> {
        let Case { session, window, bytes, taint, words, plugins } = self;
        let memory = Memory::new(window, TaintedBytes { bytes, taint });
        match plugins.line() {
            None => Ok(Machine::Alone(Box::new(session), memory, words)),
            Some(_) => plugins.pair(memory).map(|pair| Machine::Pair(Box::new(pair))),
        }
    }

    /// Whether what was said goes together with plugins, where there are any.
    fn fits_plugins(&self) -> Result<(), String> {
        if self.plugins.line().is_none() {
            return Ok(());
        }
        if self.window.readonly != 0 {
            return Err("`readonly` in a case of plugins: the range that they share takes its place".into());
        }
        if self.session != Session::new() || !self.words.is_empty() {
            return Err("a register or a word stands before this, and is no plugin's".into());
        }
        Ok(())
    }

    /// Takes one line.
    fn statement(&mut self, at: usize, line: &str) -> Result<(), String> {
        // Letters may end in spaces.
        let line = line.trim_start();
        if line.trim().is_empty() || line.starts_with('#') {
            return Ok(());
        }
        let (name, rest) = first_word(line);
        match (name, rest) {
            ("origin", rest) => self.window.origin = number(rest.trim())?,
            ("readonly", rest) => self.window.readonly = number(rest.trim())?,
            ("shared" | "plugin" | "turn", rest) => self.plugins.statement(at, name, rest.trim())?,
            ("word", rest) => self.push(hexadecimal(rest.trim())?)?,
            ("image", rest) => self.import(rest.trim())?,
            ("pc", rest) => self.session()?.set_pc(number(rest.trim())?),
            ("monitor", rest) => {
                let (address, bytes) = first_word(rest.trim());
                let monitor = Monitor { address: number(address)?, bytes: number(bytes.trim())? };
                self.session()?.set_monitor(Some(monitor));
            }
            ("tainted", rest) => {
                let (name, value) = first_word(rest);
                if !self.put(name, value, true)? {
                    return Err(said_of_tainted(name));
                }
            }
            (name, value) if self.put(name, value, false)? => {}
            _ => {
                let line = line.trim_end();
                let read: Result<Instruction, _> = line.parse();
                self.push(read.map_err(|refusal| said(line, refusal))?.word())?;
            }
        }
        self.fits_plugins()
    }

    /// Puts what may be tainted, and says whether the name is that of such a thing.
    fn put(&mut self, name: &str, value: &str, tainted: bool) -> Result<bool, String> {
        match name {
            "bytes" => {
                let bytes = value.split_whitespace().map(byte).collect::<Result<Vec<u8>, _>>();
                let bytes = bytes.map_err(|said| kept_secret(tainted, said, "no byte of two hexadecimal digits"))?;
                self.add(bytes.len() as u64, bytes.into_iter(), tainted)?;
            }
            "letters" => self.add(value.len() as u64, value.bytes(), tainted)?,
            "zeros" => {
                let length = number(value.trim());
                let length = length.map_err(|said| kept_secret(tainted, said, "no number of 64 bits"))?;
                self.add(length, std::iter::repeat(0).take(length as usize), tainted)?;
            }
            _ => return self.set(name, value.trim(), tainted),
        }
        Ok(true)
    }

    /// Sets a register, and says whether the name is one's. A tainted one may say of which bytes: `x2.0-3,7`.
    fn set(&mut self, name: &str, value: &str, tainted: bool) -> Result<bool, String> {
        let (name, bytes) = match name.split_once('.') {
            Some((name, bytes)) if tainted => (name, Some(bytes)),
            _ => (name, None),
        };
        if let Ok(register) = name.parse::<Register>() {
            let taint = taint_of(bytes, tainted, [Taint::NONE, Taint::ALL])?;
            let value = number(value).map_err(|said| kept_secret(tainted, said, "no number of 64 bits"))?;
            self.session()?.set(register, value, taint);
        } else if let Ok(register) = name.parse::<VectorRegister>() {
            let taint = taint_of(bytes, tainted, [VectorTaint::NONE, VectorTaint::ALL])?;
            let value = wide_number(value).map_err(|said| kept_secret(tainted, said, "no number of 128 bits"))?;
            self.session()?.vectors_mut().set(register, value, taint);
        } else {
            return Ok(false);
        }
        Ok(true)
    }

    /// The session whose registers are set.
    fn session(&mut self) -> Result<&mut Session, String> {
        self.plugins.session(&mut self.session)
    }

    fn push(&mut self, word: u32) -> Result<(), String> {
        self.plugins.words(&mut self.words)?.push(word);
        Ok(())
    }

    /// Reads a memory image into what there is of memory.
    fn import(&mut self, name: &str) -> Result<(), String> {
        let text = fs::read(name).map_err(|error| format!("{name}: {error}"))?;
        let parts = TaintedBytes { bytes: &mut self.bytes[..], taint: &mut self.taint[..] };
        let done = Memory::new(self.window, parts).import_hex(&text);
        done.map_err(|error| format!("{name}: {}", import::said(&text, error)))
    }

    fn add(&mut self, length: u64, bytes: impl Iterator<Item = u8>, tainted: bool) -> Result<(), String> {
        if length > (MEMORY_MAX - self.bytes.len()) as u64 {
            return Err(format!("memory of more than {MEMORY_MAX} bytes"));
        }
        self.bytes.extend(bytes);
        self.taint.resize(self.bytes.len(), tainted.into());
        Ok(())
    }
}

pub fn first_word(line: &str) -> (&str, &str) {
    line.split_once(char::is_whitespace).unwrap_or((line, ""))
}

/// The taint of a register: of the bytes that are named, or of all of a tainted one.
fn taint_of<T: FromStr<Err = UnknownByte>>(
    named: Option<&str>,
    tainted: bool,
    [none, all]: [T; 2],
) -> Result<T, String> {
    match named {
        Some(named) => named.parse().map_err(|error: UnknownByte| error.to_string()),
        None => Ok(if tainted { all } else { none }),
    }
}

/// What stands behind the name of a register for its tainted bytes: nothing where it is all of them.
fn named_bytes<T: PartialEq + Display>(taint: T, all: T) -> String {
    if taint == all {
        String::new()
    } else {
        format!(".{taint}")
    }
}

/// What is said of a value that can't be taken, which isn't repeated where it is tainted.
fn kept_secret(tainted: bool, said: String, what: &str) -> String {
    if tainted {
        format!("what stands there to be tainted is {what}")
    } else {
        said
    }
}

fn byte(digits: &str) -> Result<u8, String> {
    let fits = digits.len() == 2 && digits.bytes().all(|digit| digit.is_ascii_hexdigit());
    let byte = fits.then(|| u8::from_str_radix(digits, 16).ok()).flatten();
    byte.ok_or_else(|| format!("`{digits}` is no byte of two hexadecimal digits"))
}

/// `milestarling run`.
pub fn command(call: &Call, output: &mut dyn Write) -> Result<(), Failure> {
    let secrets = call.has("--secrets");
    if call.has("--json") {
        return run_json::all(&call.operands, secrets, output);
    }
    Source::each(call, output, |mut source, output| match Machine::read(&mut source)? {
        Machine::Alone(session, memory, words) => run_alone(*session, memory, &words, secrets, output),
        Machine::Pair(pair) => pair.run(secrets, output),
    })
}

fn run_alone(
    mut session: Session,
    mut memory: Region,
    words: &[u32],
    secrets: bool,
    output: &mut dyn Write,
) -> Result<(), Failure> {
    let tainted = tainted_by_steps(session.clone(), memory.clone(), words);
    let (past, ran) = Past::run(&mut session, &mut memory, words);
    let mut show = || -> io::Result<()> {
        show_steps(words, past.trace(), past.statuses(), &tainted, output)?;
        match ran {
            Ok(_) => writeln!(output, "done, after {} steps", past.steps())?,
            Err(refusal) => writeln!(output, "{refusal}{}", blame(&session, &memory, refusal))?,
        }
        show_session(&session, secrets, output)?;
        show_memory(&memory, secrets, output)
    };
    show().map_err(Failure::write)?;
    ran.map(|_| ()).map_err(|_| Failure::Refused)
}

/// A line for each step done, with what it taints.
pub fn show_steps(
    words: &[u32],
    trace: &[Access],
    statuses: &[u8],
    tainted: &[Vec<Place>],
    output: &mut dyn Write,
) -> io::Result<()> {
    let done = trace.iter().zip(statuses).map(|(&access, &status)| Step::new(access, status));
    for (at, (step, tainted)) in done.zip(tainted).enumerate() {
        write!(output, "step {}: {step}, by {:08x}, `{}`", at + 1, words[at], shown_word(words[at]))?;
        match &tainted[..] {
            [] => writeln!(output)?,
            places => writeln!(output, ", taints {}", shown_places(places))?,
        }
    }
    Ok(())
}

pub fn show_session(session: &Session, secrets: bool, output: &mut dyn Write) -> io::Result<()> {
    for register in Register::all() {
        let (value, taint) = session.get(register);
        if secrets && !taint.is_none() {
            writeln!(output, "tainted {register}{} {value:#x}", named_bytes(taint, Taint::ALL))?;
        } else if session.known(register) != Some(0) {
            writeln!(output, "{register} {}", session.shown(register))?;
        }
    }
    let vectors = session.vectors();
    for register in VectorRegister::all() {
        let (value, taint) = vectors.get(register);
        if secrets && !taint.is_none() {
            writeln!(output, "tainted {register}{} {value:#x}", named_bytes(taint, VectorTaint::ALL))?;
        } else if vectors.known(register) != Some(0) {
            writeln!(output, "{register} {}", vectors.shown(register))?;
        }
    }
    writeln!(output, "pc {:#x}", session.pc())?;
    match session.monitor() {
        Some(Monitor { address, bytes }) => writeln!(output, "monitor {address:#x} {bytes}"),
        None => Ok(()),
    }
}

/// Sixteen bytes a line. With secrets a tainted byte has a star behind it.
pub fn show_memory(memory: &Region, secrets: bool, output: &mut dyn Write) -> io::Result<()> {
    for (row, (bytes, taint)) in memory.bytes().chunks(16).zip(memory.taint().chunks(16)).enumerate() {
        write!(output, "{:#x}:", memory.window.origin.wrapping_add(16 * row as u64))?;
        for (byte, &taint) in bytes.iter().zip(taint) {
            match (taint, secrets) {
                (0, _) => write!(output, " {byte:02x}")?,
                (_, false) => write!(output, " **")?,
                (_, true) => write!(output, " {byte:02x}*")?,
            }
        }
        writeln!(output)?;
    }
    Ok(())
}
