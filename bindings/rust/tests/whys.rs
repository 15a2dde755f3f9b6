//! Why a byte is tainted: traces of any kind, damaged ones too, and what real runs leave, held against the reference.

mod reference;
mod support;

use milestarling::{
    classify, raw, Access, Answer, Instruction, Link, Memory, Past, Place, Register, Session, Start, Taint,
    TaintedBytes, VectorRegister, Window,
};
use reference::decoding::{decode, Family, Operation};
use reference::explaining::{explain, Asked, Lent, BYTE, REGISTER, VECTOR};
use reference::running::{is_misaligned, Window as Bounds};
use reference::*;
use support::{about_power, allocated_word, some_bytes, some_vectors, Random};

/// What the library says of a question, with room for so many numbers; the list is filled with 7 before.
fn ask(lent: &Lent, asked: Asked, room: usize) -> (u64, u64, Vec<u64>) {
    let mut links = vec![7; room];
    let reply = raw::why(
        &lent.words,
        &lent.trace,
        &lent.statuses,
        lent.steps,
        &lent.registers.map(Taint::from_raw),
        &lent.vectors.map(|halves| halves.map(Taint::from_raw)),
        &lent.taint,
        lent.window.origin,
        lent.window.readonly,
        lent.len,
        asked.step,
        asked.kind,
        asked.number,
        asked.byte,
        &mut links,
    );
    (reply.answer, reply.links, links)
}

/// Compares a question: with room enough, with just enough, and with too little.
fn compare(random: &mut Random, lent: &Lent, asked: Asked) -> Result<usize, u8> {
    let explained = explain(lent, asked);
    let show = || format!("{asked:x?} {:x?}", lent.words.first().map(|_| lent));
    match &explained {
        Err(answer) => {
            let room = random.below(12);
            assert_eq!(ask(lent, asked, room), (u64::from(*answer), 0, vec![7; room]), "{}", show());
        }
        Ok(links) => {
            let flat = links.concat();
            assert!(links.len() as u64 <= asked.step + 1, "{}", show());
            for more in [0, 1, 2, 5] {
                let expected = [&flat[..], &vec![7; more]].concat();
                let said = ask(lent, asked, flat.len() + more);
                assert_eq!(said, (0, links.len() as u64, expected), "{}", show());
            }
            let few = random.below(flat.len().max(1)).max(flat.len().saturating_sub(random.below(4) + 1));
            if few < flat.len() {
                assert_eq!(ask(lent, asked, few), (u64::from(NO_ROOM), 0, vec![7; few]), "{}", show());
            }
        }
    }
    explained.map(|links| links.len())
}

/// Marks of any kind: few, or many.
fn marks(random: &mut Random, lent: &mut Lent) {
    let rarity = *random.choose(&[40, 8, 2, 1]);
    for mark in &mut lent.taint {
        if random.once_in(rarity) {
            *mark = *random.choose(&[1, 1, 2, 0x80, 0xff]);
        }
    }
    for register in &mut lent.registers {
        if random.once_in(rarity) {
            *register = some_bytes(random).to_raw();
        }
    }
    lent.vectors = some_vectors(random, rarity).taint.map(|halves| halves.map(Taint::to_raw));
}

/// ldr and str of x0 and of q0, ldp and stp of x0 and x3, all at [x0]: what only copies.
const COPIES: [u32; 6] = [0xf940_0000, 0xf900_0000, 0x3dc0_0000, 0x3d80_0000, 0xa940_0c00, 0xa900_0c00];

/// An allocated word that isn't unpredictable, often of few registers, and mostly a copy where bytes are to be copied on and on.
fn word(random: &mut Random, copies: bool) -> u32 {
    if copies && !random.once_in(30) {
        return *random.choose(&COPIES) + random.below(3) as u32;
    }
    loop {
        let mut word = allocated_word(random);
        if !random.once_in(4) {
            let few = |random: &mut Random| *random.choose(&[0, 1, 2, 3, 31]);
            word = word & !31 | few(random);
            if decode(word).is_ok_and(|instruction| instruction.is_pair()) {
                word = word & !(31 << 10) | few(random) << 10;
            }
        }
        if decode(word).is_ok_and(|instruction| !instruction.is_unpredictable()) {
            return word;
        }
    }
}

/// The code and an address of a word that some run can have left, if there is one.
fn row(random: &mut Random, lent: &Lent, word: u32) -> Option<[u64; 2]> {
    let instruction = decode(word).ok()?;
    if instruction.operation == Operation::Prefetch {
        return Some([0, 0]);
    }
    let length = (if instruction.is_pair() { 2 } else { 1 }) << instruction.size;
    let first = if instruction.is_store() { lent.window.readonly } else { 0 };
    let room = (lent.len - first).checked_sub(length)?;
    let (near, far) = (random.below(room.min(24) as usize + 1), random.below(room as usize + 1));
    let place = first + *random.choose(&[near, near, far, 0, room as usize]) as u64;
    let mut address = lent.window.origin.wrapping_add(place);
    if matches!(instruction.family, Family::Exclusive { .. } | Family::Ordered) {
        address &= !(length - 1);
    }
    let stays = address >= lent.window.origin.wrapping_add(first);
    let fits = stays && !is_misaligned(&instruction, address, length as usize);
    fits.then_some([length + if instruction.is_store() { 64 } else { 0 }, address])
}

/// A trace that some run can have left, of so many steps.
fn some_trace(random: &mut Random, steps: usize) -> Lent {
    let (len, copies) = (*random.choose(&[1, 16, 40, 64, 200]) as u64, random.once_in(2));
    let origin = match random.below(4) {
        0 => len.wrapping_neg(),
        1 => 0,
        2 => random.next() >> 1,
        _ => 0x1000,
    };
    let readonly = if random.once_in(3) { random.below(len as usize + 1) as u64 } else { 0 };
    let mut lent = Lent {
        words: Vec::new(),
        trace: Vec::new(),
        statuses: Vec::new(),
        steps: steps as u64,
        registers: [0; 32],
        vectors: [[0; 2]; 32],
        taint: vec![0; len as usize],
        window: Bounds { origin, readonly },
        len,
    };
    marks(random, &mut lent);
    while lent.words.len() < steps {
        let word = word(random, copies);
        if let Some(row) = row(random, &lent, word) {
            lent.words.push(word);
            lent.trace.extend(row);
            // A status of 1 counts for a store-exclusive alone.
            lent.statuses.push(random.once_in(3).into());
        }
    }
    // Lists may be longer than the steps.
    (0..random.below(3)).for_each(|_| lent.words.push(random.word()));
    (0..random.below(5)).for_each(|_| lent.trace.push(random.next()));
    (0..random.below(3)).for_each(|_| lent.statuses.push(random.next() as u8));
    lent
}

/// A question of a place there is, at any step.
fn some_question(random: &mut Random, lent: &Lent) -> Asked {
    let (some, any) = (random.below(lent.steps as usize + 1) as u64, random.below(32) as u64);
    let step = *random.choose(&[lent.steps, some]);
    let few = *random.choose(&[0, 1, 2, 3, 31, any]);
    let byte = random.below(8) as u64;
    match random.below(3) {
        0 => Asked { step, kind: REGISTER, number: few, byte },
        1 => Asked { step, kind: VECTOR, number: few, byte: byte + 8 * random.below(2) as u64 },
        _ => {
            let number = lent.window.origin.wrapping_add(random.below(lent.len as usize) as u64);
            Asked { step, kind: BYTE, number, byte: random.next() }
        }
    }
}

#[test]
fn traces_are_explained_as_the_reference_does() {
    let mut random = Random::new(81);
    let (mut asked, mut tainted, mut longest) = (0, 0, 0);
    for case in 0..5000 {
        let steps = if case % 50 == 0 { 700 } else { random.below(60) };
        let lent = some_trace(&mut random, steps);
        for _ in 0..20 {
            let question = some_question(&mut random, &lent);
            let links = compare(&mut random, &lent, question).expect("the trace is one that a run can leave");
            asked += 1;
            tainted += usize::from(links > 0);
            longest = longest.max(links);
        }
    }
    println!("{asked} questions, {tainted} of a tainted byte, up to {longest} links");
    assert!(tainted * 5 > asked && longest > 50, "{asked} {tainted} {longest}");
}

/// Damages one thing of a trace.
fn damage(random: &mut Random, lent: &mut Lent) {
    let step = random.below(lent.steps as usize);
    let (edge, any) = (about_power(random), random.next());
    match random.below(9) {
        0 => lent.words.truncate(step),
        1 => lent.trace.truncate(2 * step + 1),
        2 => lent.statuses.truncate(step),
        3 => lent.words[step] = random.word(),
        4 => lent.words[step] ^= 1 << random.below(32),
        5 => lent.trace[2 * step] = *random.choose(&[0, 1, 2, 4, 8, 16, 32, 64, 65, 66, 68, 72, 80, 96, 97, u64::MAX]),
        6 => lent.trace[2 * step + 1] = *random.choose(&[0, u64::MAX, edge, any]),
        7 => {
            let near = random.below(40) as u64;
            lent.trace[2 * step + 1] = lent.trace[2 * step + 1].wrapping_add(near).wrapping_sub(20);
        }
        _ => lent.statuses[step] = *random.choose(&[2, 3, 0x80, 0xff]),
    }
}

#[test]
fn damaged_traces_get_the_same_answers() {
    let mut random = Random::new(82);
    let mut answers = [0; 19];
    for _ in 0..6000 {
        let steps = 1 + random.below(30);
        let mut lent = some_trace(&mut random, steps);
        damage(&mut random, &mut lent);
        for _ in 0..4 {
            let mut question = some_question(&mut random, &lent);
            let any = random.next();
            // Refusals that come before and behind 17, once in a while.
            match random.below(12) {
                0 => question.step = lent.steps + 1 + random.below(3) as u64,
                1 => question.number = *random.choose(&[32, any, lent.window.origin.wrapping_sub(1)]),
                2 => question.byte = *random.choose(&[7, 8, 15, 16, any]),
                3 => question.kind = *random.choose(&[0, 1, 2, 3, any]),
                _ => {}
            }
            match compare(&mut random, &lent, question) {
                Ok(_) => answers[0] += 1,
                Err(answer) => answers[answer as usize] += 1,
            }
        }
    }
    println!("answers {answers:?}");
    assert!([0, 7, 11, 17, 18].iter().all(|&answer| answers[answer] > 100), "{answers:?}");
}

/// One load of a byte, `ldrb w2, [x0]`, at the second of two bytes, and a store-exclusive of it that has failed.
fn small() -> Lent {
    Lent {
        words: vec![0x3940_0002, 0x0803_7c02],
        trace: vec![1, 0x1001, 65, 0x1003],
        statuses: vec![0, 1],
        steps: 2,
        registers: [0; 32],
        vectors: [[0; 2]; 32],
        taint: vec![0, 9, 0, 0],
        window: Bounds { origin: 0x1000, readonly: 3 },
        len: 4,
    }
}

const X2: Asked = Asked { step: 2, kind: REGISTER, number: 2, byte: 0 };

/// The answer to a question about what was changed of the small trace: the library's, and the reference's.
fn answer_of(change: impl FnOnce(&mut Lent, &mut Asked)) -> u64 {
    let (mut lent, mut asked) = (small(), X2);
    change(&mut lent, &mut asked);
    let (answer, links, list) = ask(&lent, asked, 12);
    assert!(answer == 0 || links == 0 && list == [7; 12]);
    assert_eq!(explain(&lent, asked).map_or_else(u64::from, |_| 0), answer);
    answer
}

#[test]
fn each_refusal_begins_at_its_edge() {
    let at = |address| move |_: &mut Lent, asked: &mut Asked| (asked.kind, asked.number) = (BYTE, address);
    assert_eq!(answer_of(|_, _| {}), 0);
    // 1: window and marks. There is no test of PC.
    assert_eq!(answer_of(|lent, _| lent.window.readonly = 4), 17);
    assert_eq!(answer_of(|lent, _| lent.window.readonly = 5), 1);
    assert_eq!(answer_of(|lent, _| lent.taint.truncate(3)), 1);
    assert_eq!(answer_of(|lent, _| lent.taint.push(0)), 1);
    assert_eq!(answer_of(|lent, _| (lent.window.origin, lent.steps) = (4u64.wrapping_neg(), 0)), 18);
    assert_eq!(answer_of(|lent, _| (lent.window.origin, lent.steps) = (3u64.wrapping_neg(), 0)), 1);
    // 7: a byte outside the window.
    assert_eq!((answer_of(at(0xfff)), answer_of(at(0x1000))), (7, 0));
    assert_eq!((answer_of(at(0x1003)), answer_of(at(0x1004))), (0, 7));
    // 11: registers, bytes and kinds.
    assert_eq!((answer_of(|_, asked| asked.number = 31), answer_of(|_, asked| asked.number = 32)), (0, 11));
    assert_eq!((answer_of(|_, asked| asked.byte = 7), answer_of(|_, asked| asked.byte = 8)), (0, 11));
    let vector = |number, byte| move |_: &mut Lent, asked: &mut Asked| *asked = Asked { kind: 2, number, byte, ..X2 };
    assert_eq!((answer_of(vector(31, 15)), answer_of(vector(31, 16)), answer_of(vector(32, 0))), (0, 11, 11));
    assert_eq!(answer_of(|_, asked| asked.kind = 3), 11);
    // 17: lists that are too short, and steps that no run does.
    assert_eq!(answer_of(|lent, _| lent.words.truncate(1)), 17);
    assert_eq!(answer_of(|lent, _| lent.trace.truncate(3)), 17);
    assert_eq!(answer_of(|lent, _| lent.statuses.truncate(1)), 17);
    assert_eq!(answer_of(|lent, _| lent.steps = 3), 17);
    assert_eq!(answer_of(|lent, _| lent.steps = u64::MAX), 17);
    assert_eq!(answer_of(|lent, _| lent.words[0] = 0x9100_0000), 17);
    assert_eq!(answer_of(|lent, _| lent.words[0] = 0x7dc0_0020), 17);
    // stxrb w2, w2, [x0]
    assert_eq!(answer_of(|lent, _| lent.words[1] = 0x0802_7c02), 17);
    assert_eq!(answer_of(|lent, _| lent.trace[0] = 2), 17);
    assert_eq!(answer_of(|lent, _| lent.trace[2] = 1), 17);
    assert_eq!((answer_of(|lent, _| lent.statuses[0] = 1), answer_of(|lent, _| lent.statuses[0] = 2)), (0, 17));
    assert_eq!(answer_of(|lent, _| lent.trace[1] = 0xfff), 17);
    assert_eq!(answer_of(|lent, _| lent.trace[1] = 0x1004), 17);
    // 8, though the store has failed.
    assert_eq!(answer_of(|lent, _| lent.trace[3] = 0x1002), 17);
    // A prefetch, prfm pldl1keep, [x0], has no address.
    let prefetch = |address| {
        move |lent: &mut Lent, _: &mut Asked| {
            (lent.words[0], lent.trace[0], lent.trace[1]) = (0xf980_0000, 0, address);
        }
    };
    assert_eq!((answer_of(prefetch(0)), answer_of(prefetch(0x1000)), answer_of(prefetch(1))), (0, 17, 17));
    // stxrh at an odd address, 6, and with SP as its base at one that SP can't have.
    let half = |word: u32, address| {
        move |lent: &mut Lent, _: &mut Asked| {
            (lent.window.readonly, lent.words[1], lent.trace[2], lent.trace[3]) = (0, word, 66, address);
        }
    };
    assert_eq!((answer_of(half(0x4803_7c02, 0x1002)), answer_of(half(0x4803_7c02, 0x1001))), (0, 17));
    assert_eq!(answer_of(half(0x4803_7fe2, 0x1002)), 0);
    // Also a step behind the one that is asked about.
    assert_eq!(answer_of(|lent, asked| (lent.statuses[1], asked.step) = (2, 0)), 17);
    // 18: after the end.
    assert_eq!((answer_of(|_, asked| asked.step = 3), answer_of(|_, asked| asked.step = u64::MAX)), (18, 18));
    // 10: three numbers for each of two links.
    let links = vec![0, 32, 1, 1, 0x1001, 0];
    assert_eq!(ask(&small(), X2, 6), (0, 2, links.clone()));
    for room in 0..6 {
        assert_eq!(ask(&small(), X2, room), (10, 0, vec![7; room]));
    }
    assert_eq!(ask(&small(), Asked { number: 1, ..X2 }, 0), (0, 0, vec![]));
}

/// What comes first is answered first: the refusals but one are made one after another, from the last.
#[test]
fn refusals_come_in_their_order() {
    let (mut lent, mut asked) = (small(), X2);
    asked.step = 3;
    assert_eq!(ask(&lent, asked, 6).0, 18);
    lent.statuses[0] = 2;
    assert_eq!(ask(&lent, asked, 6).0, 17);
    asked.byte = 8;
    assert_eq!(ask(&lent, asked, 6).0, 11);
    (asked.kind, asked.number) = (BYTE, 0xfff);
    assert_eq!(ask(&lent, asked, 6).0, 7);
    lent.taint.push(0);
    assert_eq!(ask(&lent, asked, 6).0, 1);
}

/// A byte that goes to and fro between two places, more often than the library calls itself.
#[test]
fn a_long_way_back_is_whole() {
    let mut session = Session::new();
    let mut memory = Memory::zeroed(Window::at(0x1000), 4);
    memory.write(0x1000, b"s", true).unwrap();
    session.set(Register::X0, 0x1000, Taint::NONE);
    for turns in [1, 127, 128, 129, 5000] {
        // ldrb w2, [x0]; strb w2, [x0]
        let words = [0x3940_0002, 0x3900_0002].repeat(turns);
        let (past, ran) = Past::run(&mut session.clone(), &mut memory.clone(), &words);
        assert_eq!(ran.unwrap().steps, 2 * turns);
        for step in [0, 1, 2, turns, 2 * turns] {
            let links = past.why(Place::Memory(0x1000), step).unwrap();
            // Each store is a link, and the load before it.
            assert_eq!(links.len(), step / 2 * 2 + 1);
            assert!(links.iter().take(links.len() - 1).all(|link| link.copied.is_some()));
            assert_eq!(links.last().unwrap().to_string(), "0x1000: tainted at the start");
        }
        let refusal = past.why(Place::Memory(0x1000), 2 * turns + 1).unwrap_err();
        assert_eq!(refusal.answer(), Answer::AfterEnd);
    }
}

/// The numbers of a link, as the library writes them.
fn numbers_of(link: &Link) -> [u64; 3] {
    let step = link.copied.map_or(0, |copied| copied.step as u64 + 1);
    let register = |place| Register::all().position(|register| register == place).unwrap() as u64;
    let vector = |place| VectorRegister::all().position(|register| register == place).unwrap() as u64;
    match link.place {
        Place::Register(place, byte) => [REGISTER, 16 * register(place) + u64::from(byte), step],
        Place::Vector(place, byte) => [VECTOR, 16 * vector(place) + u64::from(byte), step],
        Place::Memory(address) => [BYTE, address, step],
    }
}

/// A session in memory, with words of which all but the last are done, and that one perhaps.
fn some_run(random: &mut Random) -> (Session, Memory<Vec<u8>, Vec<u8>>, Vec<u32>) {
    let mut memory = Memory::zeroed(Window::at(0x1000).readonly(8), 96);
    for place in 0x1000..0x1060 {
        memory.write(place, &[random.next() as u8], random.once_in(4)).unwrap();
    }
    let mut session = Session::new();
    for register in Register::all() {
        let taint = if random.once_in(4) { some_bytes(random) } else { Taint::NONE };
        session.set(register, 0x1000 + 8 * random.below(12) as u64, taint);
    }
    *session.vectors_mut().as_raw_mut() = some_vectors(random, 4);
    session.set_pc(0x1020);
    let (mut ran, mut left, mut words) = (session.clone(), memory.clone(), Vec::new());
    for _ in 0..random.below(400) {
        let word = word(random, false);
        let stepped = ran.step(&mut left, word);
        if stepped.is_ok() || random.once_in(60) {
            words.push(word);
        }
        if words.len() > 50 || stepped.is_err() && words.last() == Some(&word) {
            break;
        }
    }
    (session, memory, words)
}

/// What is lent of a past, and all its places.
fn lent_of(past: &Past) -> (Lent, Vec<Place>) {
    let start = past.start();
    let Window { origin, readonly } = start.window();
    let lent = Lent {
        words: past.words().to_vec(),
        trace: past.trace().iter().flat_map(|access| [access.code, access.address]).collect(),
        statuses: past.statuses().to_vec(),
        steps: past.steps() as u64,
        registers: Register::all().map(|one| start.register(one).to_raw()).collect::<Vec<_>>().try_into().unwrap(),
        vectors: VectorRegister::all()
            .map(|one| [start.vector(one).low().to_raw(), start.vector(one).high().to_raw()])
            .collect::<Vec<_>>()
            .try_into()
            .unwrap(),
        taint: start.taint().to_vec(),
        window: Bounds { origin, readonly },
        len: start.length(),
    };
    let registers = Register::all().flat_map(Place::of_register);
    let vectors = VectorRegister::all().flat_map(Place::of_vector);
    let bytes = (0..start.length()).map(|at| Place::Memory(origin + at));
    (lent, registers.chain(vectors).chain(bytes).collect())
}

fn is_tainted(session: &Session, memory: &Memory<Vec<u8>, Vec<u8>>, place: Place) -> bool {
    match place {
        Place::Register(register, byte) => session.get(register).1.contains(byte.into()),
        Place::Vector(register, byte) => session.vectors().get(register).1.contains(byte.into()),
        Place::Memory(address) => memory.taint()[(address - memory.window.origin) as usize] != 0,
    }
}

/// Of real runs: exactly the bytes that are tainted at the end are explained, as the reference explains them, and of a run that
/// ended with answer 5 exactly the tainted bytes of the address are to blame. What the text of a past is read as is that past.
#[test]
fn runs_are_explained() {
    let mut random = Random::new(83);
    let (mut blamed, mut tainted, mut refusals) = (0, 0, 0);
    for _ in 0..400 {
        let (mut session, mut memory, words) = some_run(&mut random);
        let (past, ran) = Past::run(&mut session, &mut memory, &words);
        let (lent, places) = lent_of(&past);
        for &place in &places {
            let links = past.why(place, past.steps()).unwrap();
            assert_eq!(!links.is_empty(), is_tainted(&session, &memory, place), "{place}, {words:08x?}");
            tainted += usize::from(!links.is_empty());
        }
        for _ in 0..40 {
            let asked = some_question(&mut random, &lent);
            let expected = explain(&lent, asked).unwrap();
            let byte = asked.byte as u8;
            let place = match asked.kind {
                REGISTER => Place::Register(Register::all().nth(asked.number as usize).unwrap(), byte),
                VECTOR => Place::Vector(VectorRegister::all().nth(asked.number as usize).unwrap(), byte),
                _ => Place::Memory(asked.number),
            };
            let links = past.why(place, asked.step as usize).unwrap();
            assert_eq!(links.iter().map(numbers_of).collect::<Vec<_>>(), expected, "{place}, {words:08x?}");
            for (link, next) in links.iter().zip(links.iter().skip(1)) {
                let copied = link.copied.unwrap();
                assert_eq!((copied.word, copied.from), (words[copied.step], next.place));
            }
        }
        let answer = ran.map_or_else(|refusal| refusal.answer(), |_| Answer::Done);
        let formed = past.refused().and_then(|word| Instruction::new(word).ok());
        let formed = formed.map_or_else(Vec::new, Instruction::address_bytes).into_iter();
        let expected: Vec<Place> = formed.filter(|&place| is_tainted(&session, &memory, place)).collect();
        let found = past.blamed().unwrap();
        assert_eq!(answer == Answer::TaintedAddress, !found.is_empty(), "{words:08x?}");
        assert!(found.is_empty() || found == expected);
        blamed += usize::from(!found.is_empty());
        refusals += usize::from(answer != Answer::Done);

        let text = past.to_string();
        assert_eq!(text.parse::<Past>().as_ref(), Ok(&past));
        assert!(Past::is_text(&text));
    }
    println!("{tainted} tainted bytes, {refusals} runs refused, {blamed} of them with 5");
    assert!(tainted > 10_000 && blamed > 20 && refusals > blamed, "{tainted} {blamed} {refusals}");
}

/// The address bytes of each word are those that a step is refused for with 5, each by itself.
#[test]
fn an_address_is_formed_of_its_bytes() {
    let mut random = Random::new(84);
    for _ in 0..20_000 {
        let instruction = Instruction::new(allocated_word(&mut random)).unwrap();
        let formed = instruction.address_bytes();
        let place = Place::of_register(Register::all().nth(random.below(32)).unwrap()).nth(random.below(8)).unwrap();
        let place = if formed.is_empty() || random.once_in(3) { place } else { *random.choose(&formed) };
        let Place::Register(register, byte) = place else { unreachable!("no other forms an address") };
        let mut session = Session::new();
        session.set(register, 0, Taint::bytes(usize::from(byte)..=byte.into()));
        let mut memory = Memory::new(Window::at(0), TaintedBytes { bytes: [0; 64], taint: [0; 64] });
        let stepped = session.step(&mut memory, instruction.word());
        let refused = stepped.is_err_and(|refusal| refusal.answer() == Answer::TaintedAddress);
        let expected = classify(instruction.word()) == Answer::Done && formed.contains(&place);
        assert_eq!(refused, expected, "{instruction} {place}");
    }
}

/// `ldrb w2, [x0]` of a secret at 0x1001, with what a host keeps of it in lists of its own.
fn kept() -> (Start, [u32; 2], [Access; 2], [u8; 2]) {
    let mut session = Session::new();
    session.set(Register::X0, 0x1001, Taint::NONE);
    let mut memory = Memory::zeroed(Window::at(0x1000), 4);
    memory.write(0x1001, b"s", true).unwrap();
    let start = Start::of(&session, &memory);
    let (words, mut trace, mut statuses) = ([0x3940_0002, 0], [Access::default(); 2], [0; 2]);
    let refusal = session.run(&mut memory, &words, &mut trace, &mut statuses).unwrap_err();
    assert_eq!((refusal.steps(), refusal.answer()), (1, Answer::NotInSet));
    (start, words, trace, statuses)
}

#[test]
fn a_past_of_lists_of_the_hosts_own() {
    let (start, words, trace, statuses) = kept();
    let x2 = Place::Register(Register::X2, 0);
    let past = start.clone().ran(&words, &trace, &statuses, 1).unwrap();
    assert_eq!((past.steps(), past.refused(), past.pc(1)), (1, Some(0), 4));
    assert_eq!(past.why(x2, 1).unwrap().len(), 2);
    assert_eq!(past.blamed().unwrap(), []);
    for (words, trace, statuses) in [(1, 2, 2), (2, 1, 2), (2, 2, 1)] {
        let (start, all, rows, marks) = kept();
        let refusal = start.ran(&all[..words], &rows[..trace], &marks[..statuses], 2).unwrap_err();
        assert_eq!(refusal.answer(), Answer::BadTrace);
    }

    // Each refusal comes back, and 7 with its address.
    let answer = |past: &Past, place, step| past.why(place, step).unwrap_err().answer();
    assert_eq!(answer(&past, x2, 2), Answer::AfterEnd);
    assert_eq!(answer(&past, Place::Register(Register::X2, 8), 1), Answer::NoSuchInstruction);
    assert_eq!(answer(&past, Place::Vector(VectorRegister::V2, 16), 1), Answer::NoSuchInstruction);
    assert_eq!(past.why(Place::Memory(0x1004), 1).unwrap_err().address(), Some(0x1004));
    let other = start.clone().ran(&words, &trace, &[2], 1).unwrap();
    assert_eq!(answer(&other, x2, 1), Answer::BadTrace);
    let text = past.to_string().replace("readonly 0", "readonly 5");
    assert_eq!(answer(&text.parse().unwrap(), x2, 1), Answer::BadWindow);
}

/// Nothing but taints and where things are goes into a past, its text and what debugging shows of it.
#[test]
fn a_past_has_no_values() {
    let past_of = |secret: u8, value: u64| {
        let mut session = Session::new();
        session.set(Register::X0, 0x1000, Taint::NONE);
        session.set(Register::X2, value, Taint::ALL);
        session.set(Register::X3, value, Taint::NONE);
        let mut memory = Memory::zeroed(Window::at(0x1000), 16);
        memory.write(0x1000, &[secret; 8], true).unwrap();
        memory.write(0x1008, &[secret; 8], false).unwrap();
        Past::run(&mut session, &mut memory, &[0xf940_0001, 0xf900_0403]).0
    };
    let (one, other) = (past_of(b'a', 0x1122_3344), past_of(b'z', u64::MAX));
    assert_eq!((one.to_string(), format!("{one:?}")), (other.to_string(), format!("{other:?}")));
    assert!(one == other);
}

/// A text with every statement, and each of its lines made wrong.
#[test]
fn a_wrong_text_is_named_by_its_line() {
    let text = "\
# of a host
milestarling trace 1

origin 0x1000
readonly 4
length 16
pc 0x8000
tainted x2.0-3,7
tainted sp
tainted q31.15
tainted q0
tainted 0x100c 4
  step 39400002 1 4096 0
step 88037c02 68 0x1008 1
word 0
";
    let past: Past = text.parse().unwrap();
    assert_eq!((past.start().pc(), past.start().length(), past.steps()), (0x8000, 16, 2));
    assert_eq!(past.start().register(Register::X2), Taint::bytes(..4) | Taint::bytes(7..));
    assert_eq!(past.start().vector(VectorRegister::V31), milestarling::VectorTaint::bytes(15..));
    assert_eq!(past.to_string().parse(), Ok(past));
    let wrong = [
        ("milestarling trace 1", "milestarling trace 2", 2, "a trace begins with"),
        ("origin 0x1000", "origin", 4, "`origin` is no statement"),
        ("origin 0x1000", "origin +1", 4, "`+1` is no number of 64 bits"),
        ("origin 0x1000", "origin 0x10000000000000000", 4, "is no number of 64 bits"),
        ("readonly 4", "origin 4", 5, "`origin` is given twice"),
        ("readonly 4", "x2 4", 5, "`x2 4` is no statement"),
        ("length 16", "length 1073741825", 6, "more than 1073741824 bytes"),
        ("length 16", "length 15", 12, "aren't all in memory"),
        ("length 16", "taints 15", 12, "aren't all in memory"),
        ("x2.0-3,7", "x2.8", 8, "`8` is neither a byte of a register, 0 to 7"),
        ("x2.0-3,7", "x2.", 8, "`` is neither a byte of a register"),
        ("sp", "x31", 9, "`x31` is no register"),
        ("sp", "x3 7", 9, "`x3` is no number"),
        ("q31.15", "q31.16", 10, "`16` is neither a byte of a register, 0 to 15"),
        ("0x100c 4", "0x100c 5", 12, "aren't all in memory"),
        ("0x100c 4", "0x100c 18446744073709551615", 12, "aren't all in memory"),
        ("0x100c 4", "0xfff 1", 12, "aren't all in memory"),
        ("39400002 1 4096 0", "39400002 1 4096", 13, "a step has a word, a code, an address and a status"),
        ("39400002 1 4096 0", "394000020 1 4096 0", 13, "is no word of one to eight hexadecimal digits"),
        ("39400002 1 4096 0", "+1 1 4096 0", 13, "is no word of one to eight hexadecimal digits"),
        ("0x1008 1", "0x1008 256", 14, "`256` is no status"),
        ("word 0", "word", 15, "`word` is no statement"),
        ("  step", "word 0\nstep", 14, "a step behind a word that wasn't done"),
    ];
    for (right, made, line, said) in wrong {
        assert!(text.contains(right), "{right}");
        let error = text.replace(right, made).parse::<Past>().unwrap_err();
        assert!(error.line() == line && error.to_string().contains(said), "{made}: {error}");
        assert!(error.to_string().starts_with(&format!("line {line}: ")), "{error}");
    }
    for (empty, line) in [("", 1), ("\n# nothing\n", 3), ("origin 4\n", 1)] {
        let error = empty.parse::<Past>().unwrap_err();
        assert!(error.line() == line && !Past::is_text(empty), "{error}");
    }
}

/// Windows at the end of all addresses, and ones that don't fit, have texts too.
#[test]
fn every_start_has_a_text() {
    let mut random = Random::new(85);
    for _ in 0..300 {
        let length = random.below(40);
        let origin = *random.choose(&[0, (length as u64).wrapping_neg(), u64::MAX, 0x1000]);
        let mut memory = Memory::zeroed(Window::at(origin).readonly(random.below(50) as u64), length);
        memory.parts_mut().taint.fill_with(|| *random.choose(&[0, 0, 1, 0xff]));
        let mut session = Session::new();
        session.set_pc(random.next());
        session.set(Register::SP, 5, some_bytes(&mut random));
        *session.vectors_mut().as_raw_mut() = some_vectors(&mut random, 3);
        let parts = memory.into_parts();
        let taint = if random.once_in(3) { vec![1; random.below(40)] } else { parts.taint };
        let memory = Memory::new(Window::at(origin), TaintedBytes { bytes: parts.bytes, taint });
        let past = Start::of(&session, &memory).ran(&[random.word()], &[], &[], 0).unwrap();
        assert_eq!(past.to_string().parse(), Ok(past));
    }
}

/// Texts that came through something that damages them are refused by their line, or are of some past, which then has a text of
/// its own and an answer to each question.
#[test]
fn a_damaged_text_is_refused_or_read() {
    let mut random = Random::new(86);
    let (mut read, mut refused) = (0, 0);
    for _ in 0..4000 {
        let (mut session, mut memory, words) = some_run(&mut random);
        let words = &words[..words.len().min(4)];
        let mut text = Past::run(&mut session, &mut memory, words).0.to_string().into_bytes();
        for _ in 0..1 + random.below(2) {
            let at = random.below(text.len());
            match random.below(4) {
                0 => drop(text.remove(at)),
                1 => text.insert(at, *random.choose(b"0123456789af x.,-#\n")),
                2 => text[at] = *random.choose(b"0123456789af x.,-#\n"),
                _ => text.truncate(at.max(1)),
            }
        }
        let text = String::from_utf8(text).unwrap();
        match text.parse::<Past>() {
            Ok(past) => {
                read += 1;
                assert_eq!(past.to_string().parse().as_ref(), Ok(&past));
                let (lent, _) = lent_of(&past);
                for place in [Place::Register(Register::X2, 0), Place::Memory(0x1010)] {
                    let asked = match place {
                        Place::Memory(number) => Asked { step: lent.steps, kind: BYTE, number, byte: 0 },
                        _ => Asked { step: lent.steps, kind: REGISTER, number: 2, byte: 0 },
                    };
                    let said = past.why(place, past.steps()).map(|links| links.iter().map(numbers_of).collect());
                    assert_eq!(said.map_err(|refusal| refusal.answer().number()), explain(&lent, asked), "{text}");
                }
            }
            Err(error) => {
                refused += 1;
                assert!((1..=text.lines().count() + 1).contains(&error.line()), "{error}");
            }
        }
    }
    println!("{read} read, {refused} refused");
    assert!(read > 200 && refused > 500, "{read} {refused}");
}
