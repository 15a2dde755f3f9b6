//! `milestarling report`: a page about a case, for a help desk.

mod account;
mod html;
mod lead;
mod page;
mod steps;
mod strip;
mod way;

use crate::call::Call;
use crate::case::Case;
use crate::input::{Failure, Source};
use account::Account;
use milestarling::Past;
use std::ffi::OsString;
use std::fs::{self, File};
use std::io::{self, ErrorKind, Write};
use std::path::{Path, PathBuf};

/// `milestarling report`.
pub fn command(call: &Call, output: &mut dyn Write) -> Result<(), Failure> {
    let out = call.value("--out").filter(|&name| name != "-").map(|name| (name, target(name)));
    if let (Some((name, Ok(path))), [case]) = (&out, &call.operands[..]) {
        if fs::canonicalize(case).is_ok_and(|case| case == *path) {
            return Err(Failure::Usage(format!("{name} is the case itself")));
        }
    }
    let page = page_of(call.source()?)?;
    match out {
        None => output.write_all(page.as_bytes()).map_err(Failure::write),
        Some((name, path)) => {
            let written = path.and_then(|path| write_whole(&path, page.as_bytes()));
            written.map_err(|error| Failure::Failed(format!("{name}: {error}")))
        }
    }
}

fn page_of(mut source: Source) -> Result<String, Failure> {
    let text = source.text()?;
    if Past::is_text(&text) {
        return Err(source.wrong("a trace, which doesn't have the answer: `milestarling why` tells of it"));
    }
    let account = Account::of(Case::read(&source, &text)?).map_err(|refusal| source.wrong(refusal))?;
    Ok(page::page(&account))
}

/// The file that a name leads to, where there is one, or else the name: never something that isn't a file, which would be
/// replaced by one.
fn target(name: &str) -> io::Result<PathBuf> {
    let wrong = |said: &str| Err(io::Error::new(ErrorKind::Other, said));
    match fs::metadata(name) {
        Ok(found) if found.is_dir() => wrong("a directory, and not a file to write to"),
        Ok(found) if !found.is_file() => wrong("no regular file; without --out the page goes to standard output"),
        Ok(_) => fs::canonicalize(name),
        Err(error) if error.kind() == ErrorKind::NotFound && !name.is_empty() && !name.ends_with('/') => {
            Ok(name.into())
        }
        Err(error) => Err(error),
    }
}

/// Writes a file whole or not at all: into another beside it, which takes its place once everything is there.
fn write_whole(path: &Path, bytes: &[u8]) -> io::Result<()> {
    let name = path.file_name().ok_or_else(|| io::Error::from(ErrorKind::InvalidInput))?;
    let mut other = OsString::from(".");
    other.push(name);
    other.push(format!(".{}", std::process::id()));
    let other = path.with_file_name(other);
    let write = |mut file: File| file.write_all(bytes).and_then(|()| file.sync_all());
    let mut options = fs::OpenOptions::new();
    let file = options.write(true).create_new(true).open(&other)?;
    let done = write(file).and_then(|()| fs::rename(&other, path));
    if done.is_err() {
        // What failed is said; that this fails too would add nothing.
        let _ = fs::remove_file(&other);
    }
    done
}
