//! Two members' plugins in one memory. Both read the name that the host has put into the shared range, each has 32 bytes for
//! itself, and they take turns. One tries a byte of the other's, and the other a store to the shared range: each refusal ends one
//! turn, and no more. Each has a lock among its own bytes, which the other's turns between a load-exclusive and its
//! store-exclusive never open, and a lock in the shared range nobody takes.
//!
//! ```text
//! cargo run --release --example plugins
//! ```

use milestarling::{
    Access, Instruction, Memory, Plugin, Range, Refusal, Register, Session, Shared, Step, Taint, Window,
};

const SHARED: Range = Range::new(0x1000, 32);
const OURS: Range = Range::new(0x1020, 32);
const THEIRS: Range = Range::new(0x1040, 32);
/// Where the lock is among a plugin's own bytes.
const LOCK: u64 = 8;

/// X0 has the shared range's address and X1 the plugin's own, X2 its lock's, X3 the other's lock's, and W4 is 1.
fn session_of(own: Range, other: Range) -> Session {
    let mut session = Session::new();
    let values = [SHARED.address, own.address, own.address + LOCK, other.address + LOCK, 1];
    for (register, value) in Register::all().zip(values) {
        session.set(register, value, Taint::NONE);
    }
    session
}

/// Takes a turn, and prints what was done and what was refused.
fn turn(both: &mut Shared<Vec<u8>, Vec<u8>>, plugin: Plugin, lines: &[&str]) -> Result<(), Refusal> {
    let name = if plugin == Plugin::First { "a" } else { "b" };
    let words: Vec<u32> =
        lines.iter().map(|line| line.parse().map(Instruction::word)).collect::<Result<_, Refusal>>()?;
    let (mut trace, mut statuses) = (vec![Access::default(); words.len()], vec![0; words.len()]);
    let ran = both.turn(plugin, &words, &mut trace, &mut statuses);
    let steps = ran.map_or_else(|refusal| refusal.steps(), |run| run.steps);
    for ((line, &access), &status) in lines.iter().zip(&trace).zip(&statuses).take(steps) {
        println!("{name}: {line}: {}", Step::new(access, status));
    }
    if let Err(refusal) = ran {
        let (answer, address) = (refusal.answer(), refusal.address().unwrap_or(0));
        println!("{name}: {}: refused ({}) at {address:#x}: {answer}", lines[steps], answer.number());
    }
    Ok(())
}

fn main() -> Result<(), Refusal> {
    let memory = Memory::zeroed(Window::at(SHARED.address), 0x60);
    let (ours, theirs) = ((session_of(OURS, THEIRS), OURS), (session_of(THEIRS, OURS), THEIRS));
    let mut both = Shared::new(memory, SHARED, ours, theirs);
    both.write(SHARED.address, b"eva", false)?;

    let (a, b) = (Plugin::First, Plugin::Second);
    turn(&mut both, a, &["ldr w5, [x0]", "str w5, [x1]", "ldrb w6, [x1, #32]", "str x0, [x1, #16]"])?;
    turn(&mut both, b, &["ldr w5, [x0]", "str w5, [x1]", "strb w4, [x0, #31]"])?;
    turn(&mut both, a, &["ldaxr w7, [x2]"])?;
    turn(&mut both, b, &["ldaxr w7, [x2]", "stxr w8, w4, [x2]", "stp q0, q1, [x1]"])?;
    turn(&mut both, b, &["stxr w8, w4, [x3]"])?;
    turn(&mut both, a, &["stxr w8, w4, [x2]"])?;
    turn(&mut both, a, &["ldaxr w7, [x0]", "stxr w8, w4, [x0]"])?;

    let bytes = both.memory().bytes();
    let place = |address: u64| (address - SHARED.address) as usize;
    let text = |range: Range| String::from_utf8_lossy(&bytes[place(range.address)..][..3]);
    let lock = bytes[place(OURS.address + LOCK)];
    println!("shared: {}; a has {}, and its lock is {lock}; b has stored zeros over its own", text(SHARED), text(OURS));
    Ok(())
}
