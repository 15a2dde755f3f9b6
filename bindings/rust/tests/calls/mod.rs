//! Calls of the command `milestarling`.

// Each test takes the part that it needs.
#![allow(dead_code)]

use std::fs;
use std::io::Write;
use std::path::{Path, PathBuf};
use std::process::{Command, Stdio};

/// What a call wrote, said and ended with.
#[derive(Clone, Debug, PartialEq, Eq)]
pub struct Ended {
    pub wrote: String,
    pub said: String,
    pub status: Option<i32>,
}

impl Ended {
    /// All went well, and it wrote this.
    pub fn well(wrote: &str) -> Ended {
        Ended { wrote: wrote.into(), said: String::new(), status: Some(0) }
    }

    /// It wrote nothing, and said something that has this in it.
    pub fn fails(&self, status: i32, said: &str) {
        assert!(self.said.starts_with("milestarling: ") && self.said.contains(said), "{said}: {self:?}");
        assert_eq!((self.status, self.wrote.as_str()), (Some(status), ""), "{said}");
    }
}

pub fn command(words: &[&str]) -> Command {
    let mut command = Command::new(env!("CARGO_BIN_EXE_milestarling"));
    command.args(words);
    command
}

pub fn call(words: &[&str], input: &[u8]) -> Ended {
    let mut child = command(words)
        .stdin(Stdio::piped())
        .stdout(Stdio::piped())
        .stderr(Stdio::piped())
        .spawn()
        .expect("the command is there");
    let mut stdin = child.stdin.take().unwrap();
    let input = input.to_vec();
    // It may end before it has read all.
    let writer = std::thread::spawn(move || drop(stdin.write_all(&input)));
    let output = child.wait_with_output().unwrap();
    writer.join().unwrap();
    let text = |bytes| String::from_utf8(bytes).unwrap();
    Ended { wrote: text(output.stdout), said: text(output.stderr), status: output.status.code() }
}

/// A file of the repository.
pub fn stored(name: &str) -> String {
    Path::new(env!("CARGO_MANIFEST_DIR")).join("../..").join(name).to_str().unwrap().into()
}

/// A file that is made for one test.
pub fn made(name: &str, content: &[u8]) -> PathBuf {
    let path = Path::new(env!("CARGO_TARGET_TMPDIR")).join(name);
    fs::write(&path, content).unwrap();
    path
}
