//! `milestarling import`: a memory image in Intel HEX.

use crate::call::Call;
use crate::case::MEMORY_MAX;
use crate::input::Failure;
use crate::places::Region;
use milestarling::{Answer, ImportError, Memory, TaintedBytes, Window};
use std::fs;
use std::io::{self, Write};

/// How to make of what objcopy writes a text that is taken.
const CONVERSION: &str = "`srec_cat FILE.hex -intel -o TAKEN.hex -intel -disable=exec-start-address` makes a text that is taken. \
    Without srec_cat, let objcopy move all addresses to 0x100000 or above by --change-addresses, and drop the carriage returns \
    by `tr -d '\\r'` and the lines of types 03 and 05";

/// What is wrong with a text, and where a build tool has written it, how to get one that is taken.
pub fn said(text: &[u8], error: ImportError) -> String {
    let line = error.line().and_then(|line| text.split(|&byte| byte == b'\n').nth(line as usize - 1));
    let returned = line.is_some_and(|line| line.ends_with(b"\r"));
    match error.answer() {
        Answer::Malformed if returned => format!("{error}; objcopy ends lines in a carriage return. {CONVERSION}"),
        Answer::BadRecordType => format!(
            "{error}; objcopy writes 02 below 0x100000, which must never be dropped, and 03 and 05 for the start. {CONVERSION}"
        ),
        _ => error.to_string(),
    }
}

/// Reads an image into so many zeros from an address on. They are put into a file, or it is written where the image has bytes.
pub fn command(call: &Call, output: &mut dyn Write) -> Result<(), Failure> {
    let [at, size] = [call.needed("--at")?, call.needed("--size")?];
    if size > MEMORY_MAX as u64 {
        return Err(Failure::Usage(format!("memory of more than {MEMORY_MAX} bytes")));
    }
    let mut source = call.source()?;
    let text = source.rest(Vec::new())?;
    // The import takes the taint from what it writes, so that what is left tells the rest.
    let parts = TaintedBytes { bytes: vec![0; size as usize], taint: vec![1; size as usize] };
    let mut memory = Memory::new(Window::at(at), parts);
    memory.import_hex(&text).map_err(|error| source.wrong(said(&text, error)))?;
    match call.value("--out") {
        Some(name) => fs::write(name, memory.bytes()).map_err(|error| Failure::Failed(format!("{name}: {error}"))),
        None => show(&memory, output).map_err(Failure::write),
    }
}

/// A line for each range of bytes that were written.
fn show(memory: &Region, output: &mut dyn Write) -> io::Result<()> {
    let written = |place: usize| memory.taint().get(place) == Some(&0);
    let mut start = 0;
    while let Some(first) = (start..memory.taint().len()).find(|&place| written(place)) {
        start = first + (first..).take_while(|&place| written(place)).count();
        let [from, to] = [first, start - 1].map(|place| memory.window.origin + place as u64);
        match start - first {
            1 => writeln!(output, "{from:#x}, 1 byte")?,
            length => writeln!(output, "{from:#x} to {to:#x}, {length} bytes")?,
        }
    }
    Ok(())
}
