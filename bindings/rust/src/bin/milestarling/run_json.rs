//! What `milestarling run` shows, as JSON. A tainted byte is `**`, but for those who ask for secrets.

use crate::case::Machine;
use crate::input::{say, Failure, Source};
use crate::json::{unread, Items, Json};
use crate::places::{blamed, shown_word, tainted_by_steps, Region};
use milestarling::{
    Access, Monitor, Past, Place, Refusal, Register, Session, Step, Taint, VectorRegister, VectorTaint,
};
use std::io::Write;

/// Runs all files that were named, or standard input, and writes one document. A file that can't be run has a member `error`,
/// which is said too.
pub fn all(files: &[&str], secrets: bool, output: &mut dyn Write) -> Result<(), Failure> {
    let (mut items, mut refused) = (Items::default(), false);
    write!(output, "{{\"files\": [").map_err(Failure::write)?;
    for &name in if files.is_empty() { &["-"] } else { files } {
        let shown = Source::of(&[name]).and_then(|mut source| {
            let machine = Machine::read(&mut source)?;
            Ok(ran(&source, machine, secrets))
        });
        let (members, ended) = match shown {
            Ok((members, is_refused)) => (Json::Object(members), is_refused),
            Err(Failure::Failed(said)) => {
                say(&said);
                (unread(name, &said), true)
            }
            Err(other) => return Err(other),
        };
        items.add(members, output).map_err(Failure::write)?;
        refused |= ended;
    }
    writeln!(output, "\n]}}").map_err(Failure::write)?;
    if refused {
        return Err(Failure::Refused);
    }
    Ok(())
}

/// Runs a machine: what is shown of it, and whether a word was refused.
fn ran(source: &Source, machine: Machine, secrets: bool) -> (Vec<(&'static str, Json)>, bool) {
    let mut members = vec![("file", Json::text(source.name()))];
    let refused = match machine {
        Machine::Pair(pair) => pair.run_for_json(secrets, &mut members),
        Machine::Alone(mut session, mut memory, words) => {
            let tainted = tainted_by_steps((*session).clone(), memory.clone(), &words);
            let (past, ran) = Past::run(&mut session, &mut memory, &words);
            members.push(("steps", steps(&words, past.trace(), past.statuses(), &tainted)));
            members.extend(ended(ran.map(|_| ()), &session, &memory));
            members.extend(self::session(&session, secrets));
            members.push(("memory", self::memory(&memory, secrets)));
            ran.is_err()
        }
    };
    (members, refused)
}

/// A byte of a register or of memory.
pub fn place(place: Place) -> Json {
    let of_register = |name: String, byte: u8| {
        Json::Object(vec![("register", Json::Text(name)), ("byte", Json::Number(byte.into()))])
    };
    match place {
        Place::Register(register, byte) => of_register(register.to_string(), byte),
        Place::Vector(register, byte) => of_register(register.to_string(), byte),
        Place::Memory(address) => Json::Object(vec![("address", Json::address(address))]),
    }
}

pub fn places(places: &[Place]) -> Json {
    Json::array(places.iter().map(|&one| place(one)))
}

/// The steps done, with what each taints.
pub fn steps(words: &[u32], trace: &[Access], statuses: &[u8], tainted: &[Vec<Place>]) -> Json {
    let done = trace.iter().zip(statuses).map(|(&access, &status)| Step::new(access, status));
    let steps = done.zip(tainted).zip(words).enumerate().map(|(at, ((step, tainted), &word))| {
        Json::Object(vec![
            ("step", Json::Number(at as u64 + 1)),
            ("word", Json::word(word)),
            ("text", Json::text(shown_word(word))),
            ("code", Json::Number(step.access.code)),
            ("address", Json::address(step.access.address)),
            ("failed", Json::Bool(step.failed)),
            ("taints", places(tainted)),
        ])
    });
    Json::array(steps)
}

/// How a run has ended: its answer, and the word that was refused.
pub fn ended(ran: Result<(), Refusal>, session: &Session, memory: &Region) -> Vec<(&'static str, Json)> {
    let Err(refusal) = ran else {
        return vec![("answer", Json::Number(0)), ("refused", Json::Null)];
    };
    let refused = Json::Object(vec![
        ("meaning", Json::text(refusal.answer())),
        ("word", Json::maybe(refusal.word().map(Json::word))),
        ("text", Json::maybe(refusal.word().map(|word| Json::text(shown_word(word))))),
        ("address", Json::maybe(refusal.address().map(Json::address))),
        ("tainted", places(&blamed(session, memory, refusal))),
    ]);
    vec![("answer", Json::Number(refusal.answer().into())), ("refused", refused)]
}

/// The registers that aren't 0, the program counter and the monitor.
pub fn session(session: &Session, secrets: bool) -> Vec<(&'static str, Json)> {
    let mut registers = Vec::new();
    for register in Register::all().filter(|&register| session.known(register) != Some(0)) {
        let (value, taint) = session.get(register);
        let shown = if secrets { format!("{value:#018x}") } else { session.shown(register).to_string() };
        registers.push(one_register(register.to_string(), shown, tainted_bytes(taint)));
    }
    let vectors = session.vectors();
    for register in VectorRegister::all().filter(|&register| vectors.known(register) != Some(0)) {
        let (value, taint) = vectors.get(register);
        let shown = if secrets { format!("{value:#034x}") } else { vectors.shown(register).to_string() };
        registers.push(one_register(register.to_string(), shown, tainted_vector_bytes(taint)));
    }
    let monitor = session.monitor().map(|Monitor { address, bytes }| {
        Json::Object(vec![("address", Json::address(address)), ("bytes", Json::Number(bytes))])
    });
    vec![("registers", Json::Array(registers)), ("pc", Json::address(session.pc())), ("monitor", Json::maybe(monitor))]
}

fn tainted_bytes(taint: Taint) -> Vec<u64> {
    (0..8).filter(|&byte| taint.contains(byte as usize)).collect()
}

fn tainted_vector_bytes(taint: VectorTaint) -> Vec<u64> {
    (0..16).filter(|&byte| taint.contains(byte as usize)).collect()
}

fn one_register(name: String, shown: String, tainted: Vec<u64>) -> Json {
    Json::Object(vec![
        ("name", Json::Text(name)),
        ("value", Json::Text(shown)),
        ("tainted", Json::array(tainted.into_iter().map(Json::Number))),
    ])
}

/// Memory: its bytes, two signs each, and the stretches of it that are tainted.
pub fn memory(memory: &Region, secrets: bool) -> Json {
    let bytes = memory.bytes().iter().zip(memory.taint()).map(|(byte, &taint)| match taint {
        0 => format!("{byte:02x}"),
        _ if secrets => format!("{byte:02x}"),
        _ => "**".into(),
    });
    let (mut stretches, mut at) = (Vec::new(), 0);
    while let Some(first) = memory.taint()[at..].iter().position(|&taint| taint != 0) {
        at += first;
        let length = memory.taint()[at..].iter().take_while(|&&taint| taint != 0).count();
        stretches.push(Json::Object(vec![
            ("address", Json::address(memory.window.origin.wrapping_add(at as u64))),
            ("bytes", Json::Number(length as u64)),
        ]));
        at += length;
    }
    Json::Object(vec![
        ("origin", Json::address(memory.window.origin)),
        ("readonly", Json::Number(memory.window.readonly)),
        ("bytes", Json::Text(bytes.collect())),
        ("tainted", Json::Array(stretches)),
    ])
}
