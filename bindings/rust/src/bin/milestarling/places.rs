//! Bytes of registers and of memory: which are tainted, and how they are told.

use milestarling::{Answer, Instruction, Memory, Numbers, Place, Refusal, Register, Session, Step, VectorRegister};
use std::iter::once;

/// The number of the family of pairs.
const PAIR_FAMILY: u32 = 2;

/// The memory of a case.
pub type Region = Memory<Vec<u8>, Vec<u8>>;

/// The text of a word, or `-` where it has none.
pub fn shown_word(word: u32) -> String {
    Instruction::new(word).map_or_else(|_| "-".into(), |instruction| instruction.to_string())
}

/// The byte behind this one, in the same register or in memory.
pub fn next_place(place: Place) -> Place {
    match place {
        Place::Register(register, byte) => Place::Register(register, byte + 1),
        Place::Vector(register, byte) => Place::Vector(register, byte + 1),
        Place::Memory(address) => Place::Memory(address.wrapping_add(1)),
    }
}

/// Places from one to another.
pub fn shown_span(first: Place, last: Place) -> String {
    match (first, last) {
        _ if first == last => first.to_string(),
        (Place::Register(register, first), Place::Register(_, last)) => format!("{register} bytes {first} to {last}"),
        (Place::Vector(register, first), Place::Vector(_, last)) => format!("{register} bytes {first} to {last}"),
        _ => format!("{first} to {last}"),
    }
}

/// Places in their order, those behind each other as one span.
pub fn shown_places(places: &[Place]) -> String {
    let is_next = |at: usize| at > 0 && next_place(places[at - 1]) == places[at];
    let starts: Vec<usize> = (0..places.len()).filter(|&at| !is_next(at)).collect();
    let ends = starts.iter().skip(1).copied().chain(once(places.len()));
    let spans: Vec<String> =
        starts.iter().zip(ends).map(|(&start, end)| shown_span(places[start], places[end - 1])).collect();
    match &spans[..] {
        [] => String::new(),
        [one] => one.clone(),
        [others @ .., last] => format!("{} and {last}", others.join(", ")),
    }
}

/// For each step that is done the places that it taints: those that are tainted after it of what it sets.
pub fn tainted_by_steps(mut session: Session, mut memory: Region, words: &[u32]) -> Vec<Vec<Place>> {
    let done = words.iter().map_while(|&word| {
        let step = session.step(&mut memory, word).ok()?;
        Some(tainted_by(&session, &memory, word, step))
    });
    done.collect()
}

/// The places that are tainted after a step of those that it sets.
pub fn tainted_by(session: &Session, memory: &Region, word: u32, step: Step) -> Vec<Place> {
    let places = Instruction::new(word).map_or_else(|_| Vec::new(), |found| set_by(found, step)).into_iter();
    places.filter(|&place| is_tainted(session, memory, place)).collect()
}

/// The bytes that a step has set by a copy.
pub fn set_by(instruction: Instruction, step: Step) -> Vec<Place> {
    let numbers = instruction.numbers();
    if step.access.is_store() {
        let bytes = if step.failed { 0 } else { step.access.bytes() };
        return (0..bytes).map(|byte| Place::Memory(step.access.address.wrapping_add(byte))).collect();
    }
    let registers = match (numbers.direction, numbers.family) {
        (Numbers::LOAD, PAIR_FAMILY) => vec![numbers.target, numbers.second],
        (Numbers::LOAD, _) => vec![numbers.target],
        _ => Vec::new(),
    };
    let of_one = |number: u32| -> Vec<Place> {
        // 31 is the zero register here, which holds nothing, or V31.
        if instruction.word() >> 26 & 1 == 1 {
            VectorRegister::v(number as u8).into_iter().flat_map(Place::of_vector).collect()
        } else {
            Register::x(number as u8).into_iter().flat_map(Place::of_register).collect()
        }
    };
    registers.into_iter().flat_map(of_one).collect()
}

fn is_tainted(session: &Session, memory: &Region, place: Place) -> bool {
    match place {
        Place::Register(register, byte) => session.get(register).1.contains(byte.into()),
        Place::Vector(register, byte) => session.vectors().get(register).1.contains(byte.into()),
        Place::Memory(address) => memory.taint()[address.wrapping_sub(memory.window.origin) as usize] != 0,
    }
}

/// The bytes that an answer 5 is for.
pub fn blamed(session: &Session, memory: &Region, refusal: Refusal) -> Vec<Place> {
    let refused = refusal.word().filter(|_| refusal.answer() == Answer::TaintedAddress);
    let formed = refused.and_then(|word| Instruction::new(word).ok()).map_or_else(Vec::new, Instruction::address_bytes);
    formed.into_iter().filter(|&place| is_tainted(session, memory, place)).collect()
}

/// What is said behind an answer 5: the bytes that it is for.
pub fn blame(session: &Session, memory: &Region, refusal: Refusal) -> String {
    let places = blamed(session, memory, refusal);
    match places.len() {
        0 => String::new(),
        1 => format!(": {} is tainted", shown_places(&places)),
        _ => format!(": {} are tainted", shown_places(&places)),
    }
}
