//! The machines that are stored beside the program `replay`, with what must become of them.
//!
//! Library and reference are both held against them, so that the reference has a witness of its own for runs too. The
//! format of the cases and of their lines stands in `tools/replay_format.py`.

mod reference;
mod support;

use milestarling::raw::{self, SessionRecord, VectorsRecord};
use milestarling::Taint;
use reference::running::{self, State, Window};
use reference::NO_ROOM;
use std::fmt::{Display, Write};
use support::{state_of, stored};

/// Numbers before the registers of a case.
const HEADER: usize = 10;

#[derive(Clone)]
struct Case {
    words: Vec<u32>,
    session: SessionRecord,
    vectors: VectorsRecord,
    window: Window,
    memory: Vec<u8>,
    taint: Vec<u8>,
    trace: Vec<u64>,
    statuses: Vec<u8>,
}

/// What is left of the input; a piece that isn't there whole gives none.
struct Input<'a>(&'a [u8]);

impl<'a> Input<'a> {
    fn bytes(&mut self, length: usize) -> Option<&'a [u8]> {
        let (taken, rest) = (self.0.get(..length)?, &self.0[length..]);
        self.0 = rest;
        Some(taken)
    }

    fn numbers(&mut self, count: usize) -> Option<Vec<u64>> {
        let bytes = self.bytes(8 * count)?;
        Some(bytes.chunks_exact(8).map(|number| u64::from_le_bytes(number.try_into().unwrap())).collect())
    }

    /// The halves of 32 vector registers, or of their taints.
    fn halves(&mut self) -> Option<[[u64; 2]; 32]> {
        let numbers = self.numbers(64)?;
        Some(std::array::from_fn(|number| [numbers[2 * number], numbers[2 * number + 1]]))
    }

    fn case(&mut self) -> Option<Case> {
        let header = self.numbers(HEADER)?;
        let [words, memory, taint, trace, statuses] = [0, 1, 2, 3, 4].map(|at| header[at] as usize);
        let session = SessionRecord {
            value: self.numbers(32)?.try_into().unwrap(),
            value_taint: self.numbers(32)?.into_iter().map(Taint::from_raw).collect::<Vec<_>>().try_into().unwrap(),
            pc: header[7],
            monitor_address: header[8],
            monitor_size: header[9],
        };
        let (value, taint_halves) = (self.halves()?, self.halves()?);
        let vectors = VectorsRecord { value, taint: taint_halves.map(|halves| halves.map(Taint::from_raw)) };
        let words = self.bytes(4 * words)?.chunks_exact(4);
        Some(Case {
            words: words.map(|word| u32::from_le_bytes(word.try_into().unwrap())).collect(),
            session,
            vectors,
            window: Window { origin: header[5], readonly: header[6] },
            memory: self.bytes(memory)?.to_vec(),
            taint: self.bytes(taint)?.to_vec(),
            trace: vec![u64::MAX; trace],
            statuses: vec![u8::MAX; statuses],
        })
    }
}

fn hex(bytes: &[u8]) -> String {
    bytes.iter().fold(String::new(), |text, byte| text + &format!("{byte:02x}"))
}

fn joined<T: Display>(numbers: impl IntoIterator<Item = T>) -> String {
    numbers.into_iter().fold(String::new(), |text, number| text + &format!("\t{number}"))
}

/// What stands behind the digits of a register.
fn shown(marks: &[bool]) -> String {
    let digits = marks.iter().rev().map(|&mark| if mark { '1' } else { '0' });
    marks.contains(&true).then(|| "*".chars().chain(digits).collect()).unwrap_or_default()
}

impl Case {
    /// The lines of a case that has been run, was left in this state, and said these four numbers.
    fn lines(&self, number: usize, state: &State, said: [u64; 4]) -> String {
        let mut text = format!("case\t{number}{}\t{}\n", joined(said), state.pc);
        let registers = state.registers.iter().zip(state.taints);
        let registers = registers.map(|(value, marks)| format!("{value:016x}{}", shown(&marks)));
        let vectors = state.vectors.iter().zip(state.vector_taints);
        let vectors = vectors.map(|(value, marks)| format!("{value:032x}{}", shown(&marks)));
        writeln!(text, "registers{}\nvectors{}", joined(registers), joined(vectors)).unwrap();
        writeln!(text, "memory\t{}\ntaint\t{}", hex(&self.memory), hex(&self.taint)).unwrap();
        writeln!(text, "trace{}", joined(&self.trace)).unwrap();
        let monitor = joined([state.monitor.address, state.monitor.size]);
        writeln!(text, "monitor{monitor}\nstatuses\t{}", hex(&self.statuses)).unwrap();
        text
    }

    fn by_run(mut self, number: usize) -> String {
        let reply = raw::run(
            &self.words,
            self.session,
            &mut self.vectors.value,
            &mut self.vectors.taint,
            self.window.origin,
            self.window.readonly,
            &mut self.memory,
            &mut self.taint,
            &mut self.trace,
            &mut self.statuses,
        );
        let said = [reply.steps, reply.answer, reply.code, reply.address];
        self.lines(number, &state_of(&reply.session, &self.vectors), said)
    }

    /// By a step in place where it is a case of one word, and the trace and the statuses are the test's to write.
    fn by_step(mut self, number: usize) -> String {
        let [word] = self.words[..] else { return self.by_run(number) };
        if self.trace.len() < 2 || self.statuses.is_empty() {
            return self.by_run(number);
        }
        let Window { origin, readonly } = self.window;
        let VectorsRecord { value, taint } = &mut self.vectors;
        let reply =
            raw::step(word, &mut self.session, value, taint, origin, readonly, &mut self.memory, &mut self.taint);
        assert_ne!(reply.answer, NO_ROOM.into());
        if reply.answer == 0 {
            self.trace[..2].copy_from_slice(&[reply.code, reply.address]);
            self.statuses[0] = reply.status as u8;
        }
        let said = [(reply.answer == 0).into(), reply.answer, reply.code, reply.address];
        self.lines(number, &state_of(&self.session, &self.vectors), said)
    }

    fn by_reference(mut self, number: usize) -> String {
        let mut state = state_of(&self.session, &self.vectors);
        let outcome = running::run(
            &self.words,
            &mut state,
            self.window,
            &mut self.memory,
            &mut self.taint,
            &mut self.trace,
            &mut self.statuses,
        );
        self.lines(number, &state, [outcome.steps, outcome.answer as u64, outcome.code, outcome.address])
    }
}

/// The lines of all cases, and the one line of the last, which the stored input cuts short.
fn lines_of(run: fn(Case, usize) -> String) -> String {
    let input = stored("replay", "stdin");
    let (mut input, mut output) = (Input(&input), String::new());
    for number in 0.. {
        match input.case() {
            Some(case) => output += &run(case, number),
            None => return output + &format!("case\t{number}\tcut short\n"),
        }
    }
    unreachable!("there are fewer cases than numbers")
}

fn compare(run: fn(Case, usize) -> String) {
    let expected = String::from_utf8(stored("replay", "stdout")).unwrap();
    let output = lines_of(run);
    let differing = output.lines().zip(expected.lines()).position(|(one, other)| one != other);
    assert_eq!(differing, None, "the first line that differs, from 0");
    assert_eq!(output.lines().count(), expected.lines().count());
    assert!(expected.lines().count() > 80_000);
}

#[test]
fn by_run() {
    compare(Case::by_run);
}

#[test]
fn by_step() {
    compare(Case::by_step);
    let input = stored("replay", "stdin");
    let mut input = Input(&input);
    let lengths: Vec<usize> = std::iter::from_fn(|| input.case()).map(|case| case.words.len()).collect();
    let single = lengths.iter().filter(|&&length| length == 1).count();
    println!("{single} of {} cases have one word", lengths.len());
    assert!(single > 5000, "only {single} cases have one word");
}

#[test]
fn by_reference() {
    compare(Case::by_reference);
}
