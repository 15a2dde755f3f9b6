//! Steps and runs over random states and windows, held against the reference.

mod reference;
mod support;

use milestarling::raw::{self, RunReply, SessionRecord, VectorsRecord};
use milestarling::Taint;
use reference::decoding::{decode, Family, Instruction, Operation};
use reference::running::{self, Outcome, Window};
use reference::*;
use support::{
    about_powers, any_origin, any_word, distinct, guarded, index_taken, inner, joined, kept_or_set, lead_to, number,
    some_bytes, some_vectors, state_of, taints, word_of_line, Random, GUARD,
};

/// All that a run gets.
#[derive(Clone)]
struct Case {
    words: Vec<u32>,
    session: SessionRecord,
    vectors: VectorsRecord,
    window: Window,
    /// With guards about the part that is lent, as taint, trace and statuses have.
    memory: Vec<u8>,
    taint: Vec<u8>,
    trace: Vec<u64>,
    statuses: Vec<u8>,
}

impl Case {
    fn len(&self) -> usize {
        self.memory.len() - 2 * GUARD
    }

    fn compare(&self) -> Outcome {
        self.compare_statuses().0
    }

    /// Runs it by the library and by the reference, and compares all that they say and leave: the outcome, and the
    /// statuses of the steps done.
    fn compare_statuses(&self) -> (Outcome, Vec<u8>) {
        let (ours, reply) = self.by_library();
        let mut theirs = self.clone();
        let mut state = state_of(&self.session, &self.vectors);
        let outcome = running::run(
            &theirs.words,
            &mut state,
            theirs.window,
            inner(&mut theirs.memory),
            inner(&mut theirs.taint),
            inner(&mut theirs.trace),
            inner(&mut theirs.statuses),
        );
        let said = (reply.steps, reply.answer, reply.code, reply.address);
        let expected = (outcome.steps, outcome.answer as u64, outcome.code, outcome.address);
        assert_eq!(said, expected, "{}", self.show());
        let (before, after) = ((&self.session, &self.vectors), (&reply.session, &ours.vectors));
        assert_eq!(state_of(after.0, after.1), state, "session, {}", self.show());
        assert!(kept_or_set(before, after), "taints of registers, {}", self.show());
        assert!(outcome.steps > 0 || before == after, "a session without a step, {}", self.show());
        assert!(ours.memory == theirs.memory, "memory, {}", self.show());
        assert!(ours.taint == theirs.taint, "taint, {}", self.show());
        assert!(ours.trace == theirs.trace, "trace, {}", self.show());
        assert!(ours.statuses == theirs.statuses, "statuses, {}", self.show());
        let statuses = inner(&mut theirs.statuses)[..outcome.steps as usize].to_vec();
        (outcome, statuses)
    }

    /// What the library leaves, and what it says.
    fn by_library(&self) -> (Case, RunReply) {
        let mut left = self.clone();
        let reply = raw::run(
            &left.words,
            left.session,
            &mut left.vectors.value,
            &mut left.vectors.taint,
            left.window.origin,
            left.window.readonly,
            inner(&mut left.memory),
            inner(&mut left.taint),
            inner(&mut left.trace),
            inner(&mut left.statuses),
        );
        left.session = reply.session;
        (left, reply)
    }

    /// The same case with this byte wherever one is marked.
    fn filled(&self, byte: u8) -> Case {
        let mut case = self.clone();
        for (value, taint) in case.session.value.iter_mut().zip(&self.session.value_taint) {
            *value = u64::from_le_bytes(blended(value.to_le_bytes(), marks_of(taint), byte));
        }
        let halves = case.vectors.value.iter_mut().flatten().zip(self.vectors.taint.iter().flatten());
        for (value, taint) in halves {
            *value = u64::from_le_bytes(blended(value.to_le_bytes(), marks_of(taint), byte));
        }
        for (place, &taint) in inner(&mut case.memory).iter_mut().zip(inner(&mut case.taint).iter()) {
            *place = if taint != 0 { byte } else { *place };
        }
        case
    }

    fn show(&self) -> String {
        format!(
            "words {:08x?}, {:x?}, taints {:x?} {:x?}, {:x?}, {} bytes, {} taint bytes, trace of {}, {} statuses",
            &self.words[..self.words.len().min(40)],
            state_of(&self.session, &self.vectors),
            self.session.value_taint.map(Taint::to_raw),
            self.vectors.taint.map(|halves| halves.map(Taint::to_raw)),
            self.window,
            self.len(),
            self.taint.len() - 2 * GUARD,
            self.trace.len() - 2 * GUARD,
            self.statuses.len() - 2 * GUARD
        )
    }
}

/// The bytes of a register's taint.
fn marks_of(taint: &Taint) -> [u8; 8] {
    taint.to_raw().to_le_bytes()
}

fn blended(value: [u8; 8], marks: [u8; 8], byte: u8) -> [u8; 8] {
    std::array::from_fn(|at| if marks[at] != 0 { byte } else { value[at] })
}

/// Whether two lists of bytes differ at each place that is marked, and at no other.
fn differ_by_marks(ours: &[u8], theirs: &[u8], marks: &[u8]) -> bool {
    ours.iter().zip(theirs).zip(marks).all(|((one, other), &mark)| (one != other) == (mark != 0))
}

/// An address in the window or beside it.
fn address(random: &mut Random, window: Window, len: usize) -> u64 {
    let place = match random.below(8) {
        0 => 0,
        1 => len as u64,
        2 => window.readonly,
        _ => random.below(len + 1) as u64,
    };
    let near = random.below(36) as u64;
    let at = window.origin.wrapping_add(place);
    if random.once_in(2) {
        at.wrapping_sub(near)
    } else if random.once_in(2) {
        at.wrapping_add(near)
    } else {
        at
    }
}

/// A case of so many words, not yet with the words themselves.
fn blank(random: &mut Random, len: usize, words: usize) -> Case {
    let origin = any_origin(random, len);
    let readonly = match random.below(12) {
        0 => len as u64,
        1 if random.once_in(4) => len as u64 + 1 + random.below(3) as u64,
        2 if random.once_in(4) => number(random),
        3..=6 => random.below(len + 1) as u64,
        _ => 0,
    };
    let window = Window { origin, readonly };
    let memory = guarded(random, len);
    let other = random.below(len + 2);
    let mut taint = vec![0; if random.once_in(50) { other } else { len } + 2 * GUARD];
    taints(random, &mut taint);
    let room = match random.below(30) {
        0 => random.below(2 * words + 1),
        1 => (2 * words).saturating_sub(1),
        2..=8 => 2 * words + random.below(6),
        _ => 2 * words,
    };
    let places = match random.below(30) {
        0 => random.below(words + 1),
        1 => words.saturating_sub(1),
        2..=8 => words + random.below(6),
        _ => words,
    };
    let mut case = Case {
        words: Vec::with_capacity(words),
        session: SessionRecord::default(),
        vectors: VectorsRecord::default(),
        window,
        memory,
        taint,
        trace: (0..room + 2 * GUARD).map(|_| random.next()).collect(),
        statuses: guarded(random, places),
    };
    for register in &mut case.session.value {
        *register = if random.once_in(3) { number(random) } else { address(random, window, len) };
    }
    let rarity = *random.choose(&[1000, 40, 40, 8, 2]);
    for taint in &mut case.session.value_taint {
        if random.once_in(rarity) {
            *taint = some_bytes(random);
        }
    }
    case.vectors = some_vectors(random, rarity);
    let pc = match random.below(4) {
        0 => number(random),
        1 => (4 * random.below(4) as u64).wrapping_neg(),
        _ => address(random, window, len),
    };
    case.session.pc = if random.once_in(40) { pc } else { pc & !3 };
    case.session.monitor_address = if random.once_in(2) { number(random) } else { address(random, window, len) };
    case.session.monitor_size = if random.once_in(4) { number(random) } else { *random.choose(&[0, 1, 2, 4, 8]) };
    case
}

/// Sets the registers that a step takes its address from so that the access is about a place in the window.
fn aim(random: &mut Random, case: &mut Case, instruction: &Instruction) {
    let len = case.len();
    let width = (if instruction.is_pair() { 2 } else { 1 }) << instruction.size;
    let target = match random.below(4) {
        // Just before the end, at it, or one too far.
        0 => {
            let end = case.window.origin.wrapping_add(len as u64);
            end.wrapping_sub(width).wrapping_add(random.below(3) as u64).wrapping_sub(1)
        }
        // About the end of the read-only part.
        1 => {
            let end = case.window.origin.wrapping_add(case.window.readonly);
            end.wrapping_sub(random.below(width as usize + 2) as u64)
        }
        _ => address(random, case.window, len),
    };
    lead_to(random, &mut case.session, instruction, target);
}

fn length_of_memory(random: &mut Random) -> usize {
    match random.below(10) {
        0 => 0,
        1 => random.below(20),
        2 => 16,
        3 => random.below(5000),
        _ => 16 + random.below(100),
    }
}

#[test]
fn single_steps() {
    let mut random = Random::new(11);
    let mut counts = [0; 11];
    // Done steps by operation, as codes, so that no kind is only ever refused.
    let mut codes = [0; 128];
    for _ in 0..700_000 {
        let len = length_of_memory(&mut random);
        let mut case = blank(&mut random, len, 1);
        let word = any_word(&mut random);
        case.words.push(word);
        if let Ok(instruction) = decode(word) {
            if !random.once_in(6) {
                aim(&mut random, &mut case, &instruction);
            }
        }
        let outcome = case.compare();
        counts[outcome.answer as usize] += 1;
        if outcome.answer == DONE {
            codes[outcome.code as usize] += 1;
        }
    }
    println!("steps by answer: {counts:?}");
    for answer in (DONE..=READ_ONLY).chain([NO_ROOM]) {
        assert!(counts[answer as usize] > 1000, "answer {answer} came up too seldom: {counts:?}");
    }
    for code in [0, 1, 2, 4, 8, 16, 65, 66, 68, 72, 80] {
        assert!(codes[code] > 1000, "code {code} came up too seldom: {codes:?}");
    }
    // Those of a pair of q, which is one of many pairs.
    assert!(codes[32] > 300 && codes[96] > 300, "a code came up too seldom: {codes:?}");
}

/// Short lists of any words: most runs end in a refusal after some steps.
#[test]
fn wild_runs() {
    let mut random = Random::new(12);
    let mut counts = [0; 11];
    let mut steps = 0;
    for _ in 0..150_000 {
        let (len, words) = (16 + random.below(3000), random.below(12));
        let mut case = blank(&mut random, len, words);
        for at in 0..words {
            let word = if random.once_in(10) { any_word(&mut random) } else { word_of_line(&mut random) };
            case.words.push(word);
            if let (Ok(instruction), false) = (decode(word), random.once_in(10)) {
                aim(&mut random, &mut case, &instruction);
                // The literal's PC is that of the start.
                if instruction.family == Family::Literal {
                    case.session.pc = case.session.pc.wrapping_sub(4 * at as u64);
                }
            }
        }
        let outcome = case.compare();
        counts[outcome.answer as usize] += 1;
        steps += outcome.steps;
    }
    println!("runs by answer: {counts:?}, steps done: {steps}");
    for answer in (DONE..=READ_ONLY).chain([NO_ROOM]) {
        assert!(counts[answer as usize] > 100, "answer {answer} came up too seldom: {counts:?}");
    }
}

/// A word that leaves the bases x1 to x8 and sp about where they are, and loads into other registers.
fn tame_word(random: &mut Random) -> u32 {
    loop {
        let word = word_of_line(random);
        let Ok(instruction) = decode(word) else { continue };
        if instruction.family == Family::Literal {
            // Near enough for the window.
            let word = word & !(0x7ffff << 5) | (random.below(16) as u32) << 5;
            return word & !0x1f | (9 + random.below(22) as u32);
        }
        // SP stays aligned.
        let keeps = !instruction.writes_back() || instruction.offset % 16 == 0;
        let base = if keeps && random.once_in(9) { 31 } else { 1 + random.below(8) as u32 };
        let data = 9 + random.below(23) as u32;
        let mut word = word & !(0x1f << 5) & !0x1f | base << 5 | data;
        match instruction.family {
            // Another one of 9 to 31.
            Family::Pair(_) => {
                word = word & !(0x1f << 10) | (9 + (data - 8 + random.below(22) as u32) % 23) << 10;
            }
            // Every other one would cross a border.
            Family::Ordered if !random.once_in(100) => continue,
            // x0 is never loaded, so that it stays a small index.
            Family::Register => word &= !(0x1f << 16),
            Family::Unsigned => word &= !(0xfc0 << 10),
            // A byte is always aligned. The status goes to another one of 9 to 31.
            Family::Exclusive { .. } => {
                word &= !(0b11 << 30);
                if instruction.has_status() {
                    word = word & !(0x1f << 16) | (9 + (data - 8 + random.below(22) as u32) % 23) << 16;
                }
            }
            _ => {}
        }
        return word;
    }
}

#[test]
fn long_runs() {
    let mut random = Random::new(13);
    let mut counts = [0; 11];
    let (mut steps, mut longest) = (0, 0);
    for _ in 0..3000 {
        let words = 1 + random.below(1500);
        let mut case = blank(&mut random, 1 << 16, words);
        case.window = Window { origin: 1 << 20, readonly: 4096 };
        case.session.value[0] = random.below(64) as u64;
        for register in &mut case.session.value[1..] {
            *register = (1 << 20) + (1 << 15) + random.below(4096) as u64;
        }
        // A base of SP that isn't aligned is refused at once.
        case.session.value[31] &= !15;
        case.session.pc = (1 << 20) + 8192;
        if !random.once_in(4) {
            case.session.value_taint[..9].fill(Taint::NONE);
            case.session.value_taint[31] = Taint::NONE;
        }
        case.words.extend((0..words).map(|_| tame_word(&mut random)));
        let outcome = case.compare();
        counts[outcome.answer as usize] += 1;
        steps += outcome.steps;
        longest = longest.max(outcome.steps);
    }
    println!("runs by answer: {counts:?}, steps done: {steps}, longest: {longest}");
    assert!(steps > 500_000 && longest > 1000, "{steps} steps, the longest run {longest}");
}

/// Load-exclusives and store-exclusives at two places that are one or near each other, of any size, with other words
/// between them, so that the lock is taken and lost in every way.
#[test]
fn locks() {
    let mut random = Random::new(17);
    let (mut counts, mut answers) = ([0; 2], [0; 11]);
    for _ in 0..200_000 {
        let words = 2 + random.below(10);
        let mut case = blank(&mut random, 48, words);
        case.window = Window { origin: 4096, readonly: *random.choose(&[0, 0, 0, 17]) };
        case.taint = vec![0; 48 + 2 * GUARD];
        taints(&mut random, &mut case.taint);
        let place = 4096 + 16;
        case.session.value[1] = place;
        case.session.value[2] = place + *random.choose(&[0, 1, 2, 4, 8, 16]);
        case.session.pc &= !3;
        case.session.value_taint[1..3].fill(Taint::NONE);
        case.session.monitor_address = *random.choose(&[place, place, 0, place + 8]);
        let often = random.below(4) as u32;
        for _ in 0..words {
            let size = if random.once_in(3) { random.below(4) as u32 } else { often };
            let base = 1 + random.once_in(3) as u32;
            let data = *random.choose(&[3u32, 4, 5, 31]);
            // Bits 23, 22, 20 to 15, and 14 to 10: stxr, stlxr, ldxr, ldaxr, stlr, ldar; or str, ldr of the same size.
            let status = *random.choose(&[6u32, 7, 31]);
            let kind = *random.choose(&[
                status << 16 | 0x7c00,
                status << 16 | 0xfc00,
                0x5f_7c00,
                0x5f_fc00,
                0x9f_fc00,
                0xdf_fc00,
                0x3100_0000,
                0x3140_0000,
            ]);
            case.words.push(size << 30 | 0x0800_0000 | kind | base << 5 | data);
        }
        let (outcome, statuses) = case.compare_statuses();
        answers[outcome.answer as usize] += 1;
        for (&word, status) in case.words.iter().zip(statuses) {
            counts[status as usize] += decode(word).is_ok_and(|it| it.has_status()) as u64;
        }
    }
    println!("locks by answer: {answers:?}, taken and lost: {counts:?}");
    assert!(counts.iter().all(|&count| count > 20_000), "taken and lost: {counts:?}");
    for answer in [DONE, UNPREDICTABLE, MISALIGNED, READ_ONLY] {
        assert!(answers[answer as usize] > 1000, "answer {answer} came up too seldom: {answers:?}");
    }
}

/// Bits 31, 30, 26, 23 and 22 of all words.
fn tops() -> impl Iterator<Item = u32> {
    (0..32u32).map(|top| top >> 3 << 30 | (top >> 2 & 1) << 26 | (top & 3) << 22)
}

/// One word of each operation and width that moves x2 or v2, and x3 or v3 where it is a pair, with x1 as base and offset 0:
/// ordered ones, pairs, singles.
fn plain_words() -> Vec<u32> {
    tops()
        .map(|top| top | 1 << 5 | 2)
        .flat_map(|top| [top | 0x1900_0000, top | 0x3900_0000, top | 0x2900_0000 | 3 << 10])
        .filter(|&word| decode(word).is_ok_and(|it| it.operation != Operation::Prefetch))
        .collect()
}

/// The two ends of an address, a pair and a taint in every place of a small window.
#[test]
fn every_place_of_a_small_window() {
    let mut random = Random::new(14);
    let words = plain_words();
    let mut compared = 0;
    for origin in [0, 4096, 4101, 32u64.wrapping_neg()] {
        for readonly in [0, 1, 7, 16, 32] {
            for &word in &words {
                for place in -20i64..40 {
                    let mut case = blank(&mut random, 32, 1);
                    case.window = Window { origin, readonly };
                    case.memory = distinct(32 + 2 * GUARD);
                    // One byte alone is tainted, or each in a way of its own.
                    case.taint = vec![0; 32 + 2 * GUARD];
                    case.taint[GUARD + random.below(32)] = 1;
                    if random.once_in(2) {
                        case.taint = distinct(32 + 2 * GUARD);
                    }
                    case.session.value_taint[1] = Taint::NONE;
                    case.session.value[1] = origin.wrapping_add(place as u64);
                    case.session.pc &= !3;
                    case.words.push(word);
                    case.compare();
                    compared += 1;
                }
            }
        }
    }
    println!("{compared} steps");
}

/// A case of one word whose access is done: x1 is its base, and x4 its index if it has one.
fn plain_case(random: &mut Random, word: u32) -> Case {
    let mut case = blank(random, 48, 1);
    case.window = Window { origin: 4096, readonly: 0 };
    case.memory = distinct(48 + 2 * GUARD);
    case.taint = vec![0; 48 + 2 * GUARD];
    taints(random, &mut case.taint);
    case.trace = (0..2 + 2 * GUARD).map(|_| random.next()).collect();
    case.statuses = guarded(random, 1);
    case.session.value[1] = 4096 + 16;
    case.session.pc &= !3;
    case.session.value_taint[1] = Taint::NONE;
    case.session.value_taint[4] = Taint::NONE;
    case.words.push(word);
    case
}

/// Each load and store of each value that is next to a power of two, the signs of every width among them.
#[test]
fn values_about_powers() {
    let mut random = Random::new(15);
    let values: Vec<u64> = about_powers().collect();
    for word in plain_words() {
        let width = 1 << decode(word).unwrap().size;
        for (at, &value) in values.iter().enumerate() {
            let mut case = plain_case(&mut random, word);
            let second = values[(at + 1) % values.len()];
            (case.session.value[2], case.session.value[3]) = (value, second);
            (case.vectors.value[2], case.vectors.value[3]) = ([value, second], [second, value]);
            let memory = &mut inner(&mut case.memory)[16..];
            memory[..width].copy_from_slice(&joined([value, second]).to_le_bytes()[..width]);
            memory[width..2 * width].copy_from_slice(&joined([second, value]).to_le_bytes()[..width]);
            assert_eq!(case.compare().answer, DONE);
        }
    }
}

/// Each load and store by each index that is next to a power of two, with every option and S, also where only the low
/// half of the index is such a number.
#[test]
fn indexes_about_powers() {
    let mut random = Random::new(16);
    let words = tops().flat_map(|top| (0..16u32).map(move |index| top | 0x3824_0822 | index << 12));
    for word in words {
        let Ok(instruction) = decode(word) else { continue };
        if instruction.operation == Operation::Prefetch {
            continue;
        }
        for value in about_powers() {
            for index in [value, random.next() << 32 | value & 0xffff_ffff] {
                let mut case = plain_case(&mut random, word);
                case.session.value[4] = index;
                case.session.value[1] = (4096u64 + 16).wrapping_sub(index_taken(&instruction, index));
                assert_eq!(case.compare().answer, DONE);
            }
        }
    }
}

/// Each load and store with one byte of memory, or one byte of a register, marked by each kind of number.
#[test]
fn each_byte_marked_alone() {
    let mut random = Random::new(18);
    for word in plain_words() {
        for place in 0..48 {
            for mark in [1, 2, 0x80, 0xff] {
                let mut case = plain_case(&mut random, word);
                case.taint.fill(0);
                inner(&mut case.taint)[place] = mark;
                assert_eq!(case.compare().answer, DONE);
                if place < 16 {
                    let taint = Taint::from_raw((mark as u64) << (8 * (place % 8)));
                    case.session.value_taint[2..4].fill(Taint::NONE);
                    case.session.value_taint[2 + place / 8] = taint;
                    assert_eq!(case.compare().answer, DONE);
                }
                if place < 32 {
                    case.vectors.taint[2..4].fill([Taint::NONE; 2]);
                    case.vectors.taint[2 + place / 16][place / 8 % 2] =
                        Taint::from_raw((mark as u64) << (8 * (place % 8)));
                    assert_eq!(case.compare().answer, DONE);
                }
            }
        }
    }
}

/// Each load and store by an index with every choice of marked bytes, under every option and S: an address comes of its
/// low half where the option takes 32 bits, and of all of it else.
#[test]
fn each_marked_part_of_an_index() {
    let mut random = Random::new(19);
    let words = tops().flat_map(|top| (0..16u32).map(move |index| top | 0x3824_0822 | index << 12));
    for word in words {
        let Ok(instruction) = decode(word) else { continue };
        if instruction.operation == Operation::Prefetch {
            continue;
        }
        for bits in 0..256u64 {
            let mut case = plain_case(&mut random, word);
            let index = random.below(8) as u64;
            case.session.value[4] = index;
            case.session.value[1] = (4096u64 + 16).wrapping_sub(index_taken(&instruction, index));
            let bytes = (0..8).filter(|byte| bits >> byte & 1 == 1);
            case.session.value_taint[4] = bytes.fold(Taint::NONE, |taint, byte| taint | Taint::bytes(byte..=byte));
            let used = if word >> 13 & 1 == 0 { bits & 15 } else { bits };
            assert_eq!(case.compare().answer, if used == 0 { DONE } else { TAINTED_ADDRESS });
        }
    }
}

/// A run of tame words in a window of 4,096 bytes, of which some are marked, as some registers are.
fn secret_case(random: &mut Random) -> Case {
    let words = 1 + random.below(40);
    let mut case = blank(random, 4096, words);
    case.window = Window { origin: 1 << 20, readonly: 64 };
    case.taint = vec![0; 4096 + 2 * GUARD];
    taints(random, &mut case.taint);
    case.session.value[0] = random.below(64) as u64;
    for register in &mut case.session.value[1..] {
        *register = (1 << 20) + 2048 + random.below(256) as u64;
    }
    case.session.value[31] &= !15;
    case.session.pc = (1 << 20) + 2048;
    if !random.once_in(8) {
        case.session.value_taint[..9].fill(Taint::NONE);
        case.session.value_taint[31] = Taint::NONE;
    }
    case.words.extend((0..words).map(|_| tame_word(random)));
    case
}

/// What two runs that differ in marked bytes only have to say and leave alike.
fn is_seen_alike(ours: (&Case, &RunReply), theirs: (&Case, &RunReply)) -> bool {
    let said = |reply: &RunReply| (reply.steps, reply.answer, reply.code, reply.address);
    let rest = |session: SessionRecord| SessionRecord { value: [0; 32], ..session };
    said(ours.1) == said(theirs.1)
        && rest(ours.0.session) == rest(theirs.0.session)
        && ours.0.vectors.taint == theirs.0.vectors.taint
        && ours.0.taint == theirs.0.taint
        && ours.0.trace == theirs.0.trace
        && ours.0.statuses == theirs.0.statuses
}

/// Demand 3 and its other half, of the library alone: two runs that begin with 0 and with 255 in every marked byte say the
/// same, and end with bytes that differ just where there are marks.
#[test]
fn runs_from_0_and_from_255() {
    let mut random = Random::new(20);
    let (mut steps, mut refused, mut marked, mut vectors_marked) = (0, 0, 0, 0);
    for _ in 0..40_000 {
        let case = secret_case(&mut random);
        let [(mut low, said), (mut high, other)] = [0, 255].map(|byte| case.filled(byte).by_library());
        assert!(is_seen_alike((&low, &said), (&high, &other)), "{}", case.show());
        for (number, taint) in low.session.value_taint.iter().enumerate() {
            let [ours, theirs] = [&low, &high].map(|case| case.session.value[number].to_le_bytes());
            assert!(differ_by_marks(&ours, &theirs, &marks_of(taint)), "x{number}, {}", case.show());
            marked += usize::from(*taint != Taint::NONE);
        }
        for (half, taint) in low.vectors.taint.iter().flatten().enumerate() {
            let [ours, theirs] = [&low, &high].map(|case| case.vectors.value[half / 2][half % 2].to_le_bytes());
            assert!(differ_by_marks(&ours, &theirs, &marks_of(taint)), "v{}, {}", half / 2, case.show());
            vectors_marked += usize::from(*taint != Taint::NONE);
        }
        let marks = inner(&mut low.taint).to_vec();
        assert!(differ_by_marks(inner(&mut low.memory), inner(&mut high.memory), &marks), "{}", case.show());
        steps += said.steps;
        refused += usize::from(said.answer != DONE.into());
    }
    println!("{steps} steps, {refused} runs refused, {marked} registers and {vectors_marked} halves marked at the end");
    assert!(steps > 100_000 && refused > 1000 && marked > 20_000 && vectors_marked > 20_000);
}
