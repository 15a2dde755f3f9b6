//! What is read, what fails, and what is said while it takes long.

use crate::call::Call;
use crate::Failure::{Failed, Usage};
use std::fmt::Display;
use std::fs::File;
use std::io::{self, BufRead, BufReader, ErrorKind, IsTerminal, Write};
use std::time::{Duration, Instant};

/// Why a command ends early.
pub enum Failure {
    /// It was called wrongly.
    Usage(String),
    /// It couldn't go on.
    Failed(String),
    /// Something was refused, and was said already.
    Refused,
    /// Whoever reads the output has closed it, which is no fault.
    Closed,
    /// A file couldn't be read, which was said already, where the status 1 tells something else.
    Unread,
}

impl Failure {
    pub fn write(error: io::Error) -> Failure {
        match error.kind() {
            ErrorKind::BrokenPipe => Failure::Closed,
            _ => Failed(format!("write: {error}")),
        }
    }

    pub fn said(&self) -> Option<&str> {
        match self {
            Usage(said) | Failed(said) => Some(said),
            Failure::Refused | Failure::Closed | Failure::Unread => None,
        }
    }

    pub fn status(&self) -> u8 {
        match self {
            Usage(_) | Failure::Unread => 2,
            Failed(_) | Failure::Refused => 1,
            Failure::Closed => 0,
        }
    }
}

/// A file or standard input.
pub struct Source {
    name: String,
    reader: Box<dyn BufRead>,
    /// How many bytes it has, where that is known before it is read.
    length: Option<u64>,
}

impl Source {
    /// Of the files that were named, of which there is at most one.
    pub fn of(files: &[&str]) -> Result<Source, Failure> {
        let (name, reader, length): (&str, Box<dyn BufRead>, _) = match *files {
            [] | ["-"] => ("standard input", Box::new(io::stdin().lock()), None),
            [name] => {
                let file = File::open(name).map_err(|error| Failed(format!("{name}: {error}")))?;
                let length = file.metadata().ok().filter(|found| found.is_file()).map(|found| found.len());
                (name, Box::new(BufReader::new(file)), length)
            }
            _ => return Err(Usage(format!("one file at a time, and not {}", files.join(" ")))),
        };
        Ok(Source { name: name.into(), reader, length })
    }

    /// Does the same of the file that was named, or of standard input. Where several are asked for, each is named before what is
    /// written of it, and one that fails is said and those behind it are still done.
    pub fn each(
        call: &Call,
        output: &mut dyn Write,
        mut done: impl FnMut(Source, &mut dyn Write) -> Result<(), Failure>,
    ) -> Result<(), Failure> {
        let named = &call.operands[..];
        let several = named.len() > 1;
        if several && !call.has("--each") {
            return Err(Usage(format!("one file at a time, and not {}: --each takes several", named.join(" "))));
        }
        let files: Vec<&[&str]> = if several { named.chunks(1).collect() } else { vec![named] };
        let mut refused = false;
        for (at, &file) in files.iter().enumerate() {
            if several {
                let heading = format!("{}==> {} <==", if at == 0 { "" } else { "\n" }, file.join(" "));
                writeln!(output, "{heading}").map_err(Failure::write)?;
            }
            match Source::of(file).and_then(|source| done(source, output)) {
                Err(failure @ (Failed(_) | Failure::Refused)) if several => {
                    refused = true;
                    output.flush().map_err(Failure::write)?;
                    failure.said().into_iter().for_each(say);
                }
                other => other?,
            }
        }
        if refused {
            return Err(Failure::Refused);
        }
        Ok(())
    }

    /// What it is called.
    pub fn name(&self) -> &str {
        &self.name
    }

    /// How many bytes it has, where that is known before it is read.
    pub fn length(&self) -> Option<u64> {
        self.length
    }

    /// What is wrong with it.
    pub fn wrong(&self, said: impl Display) -> Failure {
        Failed(format!("{}: {said}", self.name))
    }

    /// Reads until the buffer is full or the input ends, and returns how many bytes came.
    pub fn fill(&mut self, buffer: &mut [u8]) -> Result<usize, Failure> {
        let mut length = 0;
        while length < buffer.len() {
            match self.some(&mut buffer[length..])? {
                0 => break,
                more => length += more,
            }
        }
        Ok(length)
    }

    /// Reads what there is, and 0 bytes only at the end of the input.
    pub fn some(&mut self, buffer: &mut [u8]) -> Result<usize, Failure> {
        loop {
            match self.reader.read(buffer) {
                Err(error) if error.kind() == ErrorKind::Interrupted => {}
                Err(error) => return Err(self.wrong(format!("read: {error}"))),
                Ok(length) => return Ok(length),
            }
        }
    }

    /// Reads all that is left behind what was read before.
    pub fn rest(&mut self, mut before: Vec<u8>) -> Result<Vec<u8>, Failure> {
        match self.reader.read_to_end(&mut before) {
            Ok(_) => Ok(before),
            Err(error) => Err(self.wrong(format!("read: {error}"))),
        }
    }

    /// All of it, which is a text. A byte order mark, which some editors put before a text, is no part of it.
    pub fn text(&mut self) -> Result<String, Failure> {
        let bytes = self.rest(Vec::new())?;
        let text = String::from_utf8(bytes).map_err(|_| self.wrong("a text that isn't UTF-8"))?;
        Ok(text.strip_prefix('\u{feff}').map(str::to_string).unwrap_or(text))
    }

    /// One line without its newline, which the last may lack, or none at the end of the input.
    pub fn line(&mut self) -> Result<Option<String>, Failure> {
        let mut line = Vec::new();
        if let Err(error) = self.reader.read_until(b'\n', &mut line) {
            return Err(self.wrong(format!("read: {error}")));
        }
        if line.is_empty() {
            return Ok(None);
        }
        if line.ends_with(b"\n") {
            line.pop();
        }
        String::from_utf8(line).map(Some).map_err(|_| self.wrong("a line that isn't UTF-8"))
    }
}

/// A text whose control characters are escaped, so that a terminal obeys none but a carriage return at the end.
pub fn printable(text: &str) -> String {
    let (text, end) = text.strip_suffix('\r').map_or((text, ""), |text| (text, "\r"));
    let shown = text.chars().map(|letter| match letter.is_control() {
        true => letter.escape_default().to_string(),
        false => letter.into(),
    });
    shown.collect::<String>() + end
}

/// Says something on standard error. If that fails there is nowhere else to say it.
pub fn say(said: impl Display) {
    let _ = writeln!(io::stderr(), "milestarling: {said}");
}

/// Says how far it is, on a terminal to which nothing else is written, once a second has passed.
pub struct Progress {
    /// How many bytes there are, where that is known.
    total: Option<u64>,
    shown: bool,
    next: Option<Instant>,
}

impl Progress {
    pub fn of(total: Option<u64>) -> Progress {
        let watched = io::stderr().is_terminal() && !io::stdout().is_terminal();
        Progress { total, shown: false, next: watched.then(|| Instant::now() + Duration::from_secs(1)) }
    }

    pub fn at(&mut self, bytes: u64) {
        if self.next.is_some_and(|next| Instant::now() >= next) {
            self.next = Some(Instant::now() + Duration::from_millis(500));
            self.shown = true;
            // A terminal that is gone is no reason to stop.
            let total = self.total.map_or_else(String::new, |total| format!(" of {}", total >> 20));
            let _ = write!(io::stderr(), "\rmilestarling: {}{total} MiB", bytes >> 20);
        }
    }
}

impl Drop for Progress {
    fn drop(&mut self) {
        if self.shown {
            let _ = write!(io::stderr(), "\r\x1b[K");
        }
    }
}
