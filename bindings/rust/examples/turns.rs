//! Two sessions and one lock, by turns of one word each. Both run the spin lock of `examples/lock.c` over and over; its
//! branches and its arithmetic are this host's. What the host does with the monitor of the session whose turn it isn't
//! decides what becomes of the lock: where it observes each step, the two hold the lock in turn; where it is opened at each
//! turn, nobody ever gets it; and where it is left alone, both hold it at once, and attempts are lost.
//!
//! ```text
//! cargo run --release --example turns ../../examples/lock.bin
//! ```

use milestarling::{touches_memory, Memory, Register, Session, Taint, Window};
use std::error::Error;
use std::ops::Range;
use std::{env, fs};

/// Where the lock and its count are, and between which words of the function it is held.
const LOCK: u64 = 0x1000;
const HELD: Range<u64> = 0x18..0x28;
const TURNS: usize = 96;

#[derive(Clone, Copy, PartialEq, Eq)]
enum Manner {
    Observed,
    Opened,
    LeftAlone,
}

/// Does one word that doesn't touch memory.
fn compute(session: &mut Session, word: u32) -> Result<(), String> {
    let register = |number: u32| Register::x((number & 31) as u8).ok_or("the zero register isn't known here");
    let next = session.pc().wrapping_add(4);
    let pc = if word & 0xffe0_0000 == 0x5280_0000 {
        // mov of a number
        session.set(register(word)?, u64::from(word >> 5 & 0xffff), Taint::NONE);
        next
    } else if word & 0xffc0_0000 == 0x1100_0000 {
        // add of a number, to 32 bits
        let (value, taint) = session.get(register(word >> 5)?);
        let sum = (value as u32).wrapping_add(word >> 10 & 0xfff);
        session.set(register(word)?, sum.into(), taint.carried().word());
        next
    } else if word & 0xff00_0000 == 0x3500_0000 {
        // cbnz of 32 bits
        let value = session.known(register(word)?).ok_or("a branch on a tainted value")?;
        let offset = i64::from((word << 8) as i32 >> 13) * 4;
        if value as u32 == 0 {
            next
        } else {
            session.pc().wrapping_add(offset as u64)
        }
    } else if word == 0xd65f_03c0 {
        // ret
        session.known(Register::X30).ok_or("a return to a tainted address")?
    } else if word == 0xd503_201f {
        // nop
        next
    } else {
        return Err("a word that this host doesn't know".into());
    };
    session.set_pc(pc);
    Ok(())
}

/// Does the next word of a session, and what the manner asks for the other's monitor.
fn turn(
    words: &[u32],
    memory: &mut Memory<Vec<u8>, Vec<u8>>,
    session: &mut Session,
    other: &mut Session,
    manner: Manner,
) -> Result<(), String> {
    let &word = words.get((session.pc() / 4) as usize).filter(|_| session.pc() % 4 == 0).ok_or("no word")?;
    if manner == Manner::Opened {
        other.open();
    }
    if !touches_memory(word) {
        return compute(session, word);
    }
    let done = session.step(memory, word).map_err(|refusal| refusal.answer().to_string())?;
    if manner == Manner::Observed {
        other.observe(done);
    }
    Ok(())
}

/// Lets the sessions take turns, and prints who takes the lock when.
fn play(words: &[u32], manner: Manner, name: &str) -> Result<(), String> {
    let mut memory = Memory::zeroed(Window::at(LOCK), 8);
    // X30 is 0, where the function begins: it is called again when it returns.
    let mut ours = Session::new();
    ours.set(Register::X0, LOCK, Taint::NONE);
    let mut theirs = ours.clone();
    let (mut taken, mut both) = (0, 0);
    print!("{name}:");
    for at in 0..TURNS {
        let (letter, session, other) =
            if at % 2 == 0 { ('a', &mut ours, &mut theirs) } else { ('b', &mut theirs, &mut ours) };
        let held = HELD.contains(&session.pc());
        turn(words, &mut memory, session, other, manner).map_err(|wrong| format!("{letter} is stopped: {wrong}"))?;
        if !held && HELD.contains(&session.pc()) {
            print!("{} {letter} at turn {at}", if taken == 0 { " taken by" } else { "," });
            taken += 1;
        }
        both += usize::from(HELD.contains(&ours.pc()) && HELD.contains(&theirs.pc()));
    }
    let nobody = if taken == 0 { " taken by nobody" } else { "" };
    let counted = memory.bytes()[4];
    println!("{nobody}; of {TURNS} turns both hold it in {both}; it is taken {taken} times, and {counted} attempts are counted");
    Ok(())
}

fn main() -> Result<(), Box<dyn Error>> {
    let name = env::args().nth(1).ok_or("turns: name examples/lock.bin")?;
    let words: Vec<u32> = milestarling::words(&fs::read(name)?, 0).map(|(_, word, _)| word).collect();
    play(&words, Manner::Observed, "observed")?;
    play(&words, Manner::Opened, "opened")?;
    play(&words, Manner::LeftAlone, "left alone")?;
    Ok(())
}
