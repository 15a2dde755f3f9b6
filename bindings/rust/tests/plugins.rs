//! Two plugins that take turns in one memory: sequences of turns, held against the reference; what a plugin sees where the other
//! one is exchanged; and where secrets are.

mod reference;
mod support;

use milestarling::raw::{self, RunReply, SessionRecord, VectorsRecord};
use milestarling::{
    Access, Answer, Instruction, Memory, Monitor, Plugin, Range, Ranges, Refusal, Register, Session, Shared, Step,
    Taint, TaintedBytes, Window,
};
use reference::decoding::{decode, Family};
use reference::running;
use reference::*;
use std::array::from_fn;
use std::mem::{align_of, size_of};
use std::ptr::addr_of;
use support::{
    allocated_word, any_origin, any_word, guarded, inner, kept_or_set, lead_to, number, some_bytes, some_vectors,
    state_of, taints, Random, GUARD,
};

// As the header has them.
const _: () = assert!(size_of::<Range>() == 16 && align_of::<Range>() == 8);
const _: () = assert!(size_of::<Ranges>() == 48 && align_of::<Ranges>() == 8);

#[test]
fn the_ranges_are_those_of_the_header() {
    let ranges = Ranges::default();
    let start = addr_of!(ranges) as usize;
    let places = [
        addr_of!(ranges.shared.address) as usize,
        addr_of!(ranges.shared.length) as usize,
        addr_of!(ranges.own) as usize,
        addr_of!(ranges.other) as usize,
    ];
    assert_eq!(places.map(|place| place - start), [0, 8, 16, 32]);
}

/// One plugin between its turns.
#[derive(Clone, PartialEq, Eq)]
struct Held {
    session: SessionRecord,
    vectors: VectorsRecord,
    own: Range,
}

/// One turn: whose it is, what the host sets before it, and all that is lent for it, with guards.
#[derive(Clone)]
struct Turn {
    plugin: usize,
    /// Registers by their numbers; 32 is PC.
    sets: Vec<(usize, u64)>,
    monitor: Option<(u64, u64)>,
    words: Vec<u32>,
    trace: Vec<u64>,
    statuses: Vec<u8>,
}

/// A sequence of turns, and what it starts from.
#[derive(Clone)]
struct Play {
    origin: u64,
    shared: Range,
    plugins: [Held; 2],
    memory: Vec<u8>,
    taint: Vec<u8>,
    turns: Vec<Turn>,
}

impl Turn {
    /// Does what the host does before it.
    fn prepare(&self, session: &mut SessionRecord) {
        for &(number, value) in &self.sets {
            match number {
                32 => session.pc = value,
                _ => raw::set_register(session, number as u32, value, Taint::NONE),
            }
        }
        if let Some((address, size)) = self.monitor {
            (session.monitor_address, session.monitor_size) = (address, size);
        }
    }
}

impl Play {
    fn ranges(&self, plugin: usize) -> Ranges {
        Ranges { shared: self.shared, own: self.plugins[plugin].own, other: self.plugins[1 - plugin].own }
    }

    /// Does a turn by the library.
    fn turn(&mut self, at: usize) -> RunReply {
        let ranges = self.ranges(self.turns[at].plugin);
        let turn = &mut self.turns[at];
        let plugin = &mut self.plugins[turn.plugin];
        turn.prepare(&mut plugin.session);
        let reply = raw::turn(
            &turn.words,
            plugin.session,
            &mut plugin.vectors.value,
            &mut plugin.vectors.taint,
            self.origin,
            ranges,
            inner(&mut self.memory),
            inner(&mut self.taint),
            inner(&mut turn.trace),
            inner(&mut turn.statuses),
        );
        plugin.session = reply.session;
        reply
    }

    /// Does it by the reference, for a plugin that is in this state.
    fn turn_by_reference(&mut self, at: usize, state: &mut running::State) -> running::Outcome {
        let Ranges { shared, own, other } = self.ranges(self.turns[at].plugin);
        let range = |range: Range| running::Range { address: range.address, length: range.length };
        let ranges = running::Ranges { shared: range(shared), own: range(own), other: range(other) };
        let turn = &mut self.turns[at];
        running::turn(
            &turn.words,
            state,
            self.origin,
            ranges,
            inner(&mut self.memory),
            inner(&mut self.taint),
            inner(&mut turn.trace),
            inner(&mut turn.statuses),
        )
    }

    /// Does all turns by the library and by the reference, and compares all that they say and leave. The answers.
    fn compare(&self) -> Vec<running::Outcome> {
        let (mut ours, mut theirs) = (self.clone(), self.clone());
        let mut outcomes = Vec::new();
        for at in 0..self.turns.len() {
            let plugin = self.turns[at].plugin;
            let mut before = ours.plugins[plugin].clone();
            self.turns[at].prepare(&mut before.session);
            let mut state = state_of(&before.session, &before.vectors);
            let outcome = theirs.turn_by_reference(at, &mut state);
            let reply = ours.turn(at);
            let after = &ours.plugins[plugin];
            let said = (reply.steps, reply.answer, reply.code, reply.address);
            let expected = (outcome.steps, outcome.answer.into(), outcome.code, outcome.address);
            assert_eq!(said, expected, "turn {at}, {}", self.show());
            assert_eq!(state_of(&after.session, &after.vectors), state, "turn {at}, {}", self.show());
            let taints = kept_or_set((&before.session, &before.vectors), (&after.session, &after.vectors));
            assert!(taints && (outcome.steps > 0 || *after == before), "turn {at}, {}", self.show());
            assert!(ours.memory == theirs.memory && ours.taint == theirs.taint, "turn {at}, {}", self.show());
            let (ours, theirs) = (&ours.turns[at], &theirs.turns[at]);
            assert!(ours.trace == theirs.trace && ours.statuses == theirs.statuses, "turn {at}, {}", self.show());
            outcomes.push(outcome);
        }
        outcomes
    }

    /// Whether a plugin may load the byte at a place of memory.
    fn is_seen(&self, plugin: usize, place: usize) -> bool {
        let at = self.origin as u128 + place as u128;
        let holds = |range: Range| {
            let first = u128::from(range.address);
            first <= at && at < first + u128::from(range.length)
        };
        holds(self.shared) || holds(self.plugins[plugin].own)
    }

    /// The bytes that a plugin may load, and their taint bytes.
    fn seen(&self, plugin: usize) -> Vec<(u8, u8)> {
        let pairs = self.memory[GUARD..].iter().zip(&self.taint[GUARD..]).take(self.memory.len() - 2 * GUARD);
        let places = pairs.enumerate().filter(|(place, _)| self.is_seen(plugin, *place));
        places.map(|(_, (&byte, &taint))| (byte, taint)).collect()
    }

    fn show(&self) -> String {
        let turns: Vec<String> = self
            .turns
            .iter()
            .map(|turn| {
                format!(
                    "{} {:08x?} sets {:x?} {:x?}, trace of {}, {} statuses",
                    turn.plugin,
                    turn.words,
                    turn.sets,
                    turn.monitor,
                    turn.trace.len() - 2 * GUARD,
                    turn.statuses.len() - 2 * GUARD
                )
            })
            .collect();
        format!(
            "{} bytes at {:x}, {} taint bytes, {:x?} {:x?} {:x?}, turns {turns:?}, {:x?}",
            self.memory.len() - 2 * GUARD,
            self.origin,
            self.taint.len() - 2 * GUARD,
            self.shared,
            self.plugins[0].own,
            self.plugins[1].own,
            [0, 1].map(|at| state_of(&self.plugins[at].session, &self.plugins[at].vectors)),
        )
    }
}

/// The shared range and the two private ones: in any order, often touching each other or an end of the window, some empty, and
/// seldom such that they get answer 1, most of these by one byte.
fn any_ranges(random: &mut Random, origin: u64, len: usize) -> [Range; 3] {
    let mut cuts: [usize; 6] = from_fn(|_| match random.below(8) {
        0 => 0,
        1 => len,
        _ => random.below(len + 1),
    });
    cuts.sort_unstable();
    for meeting in [1, 3] {
        if random.once_in(2) {
            cuts[meeting + 1] = cuts[meeting];
        }
    }
    let between =
        |at: usize| Range::new(origin.wrapping_add(cuts[2 * at] as u64), (cuts[2 * at + 1] - cuts[2 * at]) as u64);
    let mut ranges = [between(0), between(1), between(2)];
    ranges.rotate_left(random.below(3));
    ranges.swap(0, random.below(2));
    if random.once_in(8) {
        let Range { address, length } = ranges[random.below(3)];
        ranges[random.below(3)] = match random.below(8) {
            0 => Range::new(address, 0),
            1 => Range::new(address, length.wrapping_add(1)),
            2 => Range::new(address.wrapping_sub(1), length.wrapping_add(1)),
            3 => Range::new(address.wrapping_add(length).wrapping_sub(1), 1),
            4 => Range::new(number(random), length),
            5 => Range::new(address, number(random)),
            // Empty, anywhere in the window, at its end, or just behind it.
            _ => Range::new(origin.wrapping_add(random.below(len + 2) as u64), 0),
        };
    }
    ranges
}

/// The address of so many bytes that are in a range, where it has so many, or about an end of it.
fn near(random: &mut Random, range: Range, bytes: u64) -> u64 {
    let back = random.below(bytes as usize + 2) as u64;
    match random.below(8) {
        0 => range.address.wrapping_sub(back),
        1 => range.address,
        2 => range.address.wrapping_add(range.length).wrapping_sub(back),
        _ => {
            let places = range.length.saturating_sub(bytes).min(1 << 20) + 1;
            range.address.wrapping_add(random.below(places as usize) as u64)
        }
    }
}

/// A plugin of any state, whose registers lead most often to what it may reach, and a turn's sets far more often.
fn any_plugin(random: &mut Random, ranges: [Range; 3], own: Range) -> Held {
    let mut session = SessionRecord::default();
    for value in &mut session.value {
        let range = *random.choose(&ranges);
        *value = if random.once_in(4) { number(random) } else { near(random, range, 8) };
    }
    let rarity = *random.choose(&[1000, 40, 40, 8, 2]);
    for taint in &mut session.value_taint {
        if random.once_in(rarity) {
            *taint = some_bytes(random);
        }
    }
    session.pc = near(random, own, 8) & if random.once_in(60) { u64::MAX } else { !3 };
    (session.monitor_address, session.monitor_size) = (near(random, own, 8), *random.choose(&[0, 1, 4, 8]));
    Held { session, vectors: some_vectors(random, rarity), own }
}

/// A turn of up to five words, most of which are led to a place about an end of a range, and most often of one that the plugin
/// may reach.
fn any_turn(random: &mut Random, plugin: usize, ranges: Ranges) -> Turn {
    // Whatever a lead leaves so, the host doesn't set.
    const UNSET: u64 = 0x5e5e_5e5e_5e5e_5e00;
    let unset = SessionRecord { value: [UNSET; 32], pc: UNSET, ..SessionRecord::default() };
    let (mut led, mut words) = (unset, Vec::new());
    for at in 0..random.below(6) {
        let word = if random.once_in(12) { any_word(random) } else { allocated_word(random) };
        words.push(word);
        let Ok(instruction) = decode(word) else { continue };
        if !random.once_in(8) {
            let allowed = if instruction.is_store() || random.once_in(2) { ranges.own } else { ranges.shared };
            let range = *random.choose(&[allowed, allowed, allowed, allowed, allowed, ranges.shared, ranges.other]);
            let bytes = (if instruction.is_pair() { 2 } else { 1 }) << instruction.size;
            let target = near(random, range, bytes);
            lead_to(random, &mut led, &instruction, target);
            if instruction.family == Family::Literal {
                // The literal's PC is that of the start.
                led.pc = led.pc.wrapping_sub(4 * at as u64);
            }
        }
    }
    let sets = led.value.into_iter().chain([led.pc]).enumerate().filter(|&(_, value)| value != UNSET).collect();
    let monitor = (led.monitor_size != 0).then_some((led.monitor_address, led.monitor_size));
    let room = |random: &mut Random, whole: usize| match random.below(40) {
        0 => whole.saturating_sub(1),
        1..=4 => whole + random.below(4),
        _ => whole,
    };
    let (rows, places) = (room(random, 2 * words.len()), room(random, words.len()));
    let trace = (0..rows + 2 * GUARD).map(|_| random.next()).collect();
    let statuses = guarded(random, places);
    Turn { plugin, sets, monitor, words, trace, statuses }
}

/// A sequence of so many turns, in any order.
fn any_play(random: &mut Random, turns: usize) -> Play {
    let len = match random.below(16) {
        0 => random.below(24),
        1 => 16,
        _ => 48 + random.below(250),
    };
    let origin = any_origin(random, len);
    let ranges = any_ranges(random, origin, len);
    let [shared, first, second] = ranges;
    let plugins = [any_plugin(random, ranges, first), any_plugin(random, ranges, second)];
    let memory = guarded(random, len);
    let mut taint = vec![0; if random.once_in(60) { random.below(len + 2) } else { len } + 2 * GUARD];
    taints(random, &mut taint);
    let mut play = Play { origin, shared, plugins, memory, taint, turns: Vec::new() };
    for _ in 0..turns {
        let plugin = random.below(2);
        let turn = any_turn(random, plugin, play.ranges(plugin));
        play.turns.push(turn);
    }
    play
}

#[test]
fn sequences_of_turns_are_the_reference() {
    let mut random = Random::new(31);
    let (mut counts, mut codes) = ([0; 13], [0; 128]);
    for _ in 0..60_000 {
        let turns = 1 + random.below(8);
        for outcome in any_play(&mut random, turns).compare() {
            counts[outcome.answer as usize] += 1;
            if outcome.answer == DONE {
                codes[outcome.code as usize] += 1;
            }
        }
    }
    println!("turns by answer: {counts:?}");
    for answer in (DONE..=READ_ONLY).chain([NO_ROOM, NOT_ALLOWED]) {
        assert!(counts[answer as usize] > 500, "answer {answer} came up too seldom: {counts:?}");
    }
    for code in [1, 2, 4, 8, 16, 65, 66, 68, 72, 80] {
        assert!(codes[code] > 100, "code {code} came up too seldom: {codes:?}");
    }
}

/// The same play with any other plugin in the place of the one that this isn't: its words, what the host sets for it, its room,
/// its records, and the bytes that this one may not load, with their taints.
fn exchanged(random: &mut Random, play: &Play, plugin: usize) -> Play {
    let mut twin = play.clone();
    let other = 1 - plugin;
    let own = play.plugins[other].own;
    twin.plugins[other] = any_plugin(random, [play.shared, own, play.plugins[plugin].own], own);
    for turn in twin.turns.iter_mut().filter(|turn| turn.plugin == other) {
        *turn = any_turn(random, other, play.ranges(other));
    }
    for place in 0..play.memory.len() - 2 * GUARD {
        if !play.is_seen(plugin, place) {
            twin.memory[GUARD + place] = random.word() as u8;
            if let Some(taint) = inner(&mut twin.taint).get_mut(place) {
                *taint = random.word() as u8 & 1;
            }
        }
    }
    twin
}

/// Isolation: whatever the other plugin is and does, this one's answers, traces, statuses, registers, vector registers, their
/// taints, monitor and bytes are the same after each of its turns.
#[test]
fn neither_plugin_sees_the_other() {
    let mut random = Random::new(32);
    let (mut done, mut differ) = (0, 0);
    for _ in 0..40_000 {
        let turns = 2 + random.below(7);
        let mut play = any_play(&mut random, turns);
        let plugin = random.below(2);
        let before = play.clone();
        let mut twin = exchanged(&mut random, &play, plugin);
        for at in 0..turns {
            let (ours, theirs) = (play.turn(at), twin.turn(at));
            if play.turns[at].plugin != plugin {
                differ += u64::from((ours.answer, ours.steps) != (theirs.answer, theirs.steps));
                continue;
            }
            done += ours.steps;
            assert!(ours == theirs, "turn {at}, {}", before.show());
            assert!(play.plugins[plugin] == twin.plugins[plugin], "turn {at}, {}", before.show());
            assert!(play.turns[at].trace == twin.turns[at].trace, "turn {at}, {}", before.show());
            assert!(play.turns[at].statuses == twin.turns[at].statuses, "turn {at}, {}", before.show());
            assert!(play.seen(plugin) == twin.seen(plugin), "turn {at}, {}", before.show());
        }
    }
    assert!(done > 40_000 && differ > 20_000, "{done} steps, and {differ} turns of the other differ");
}

/// The value with other bytes wherever one is tainted.
fn refilled(random: &mut Random, value: u64, taint: Taint) -> u64 {
    let other = random.next().to_le_bytes();
    let bytes = value.to_le_bytes();
    u64::from_le_bytes(from_fn(|byte| if taint.contains(byte) { other[byte] } else { bytes[byte] }))
}

/// The same play with other secrets of this plugin's, in registers and in the bytes that it may load.
fn with_other_secrets(random: &mut Random, play: &Play, plugin: usize) -> Play {
    let mut twin = play.clone();
    let Held { session, vectors, .. } = &mut twin.plugins[plugin];
    for (value, &taint) in session.value.iter_mut().zip(&session.value_taint) {
        *value = refilled(random, *value, taint);
    }
    for (value, &taint) in vectors.value.iter_mut().flatten().zip(vectors.taint.iter().flatten()) {
        *value = refilled(random, *value, taint);
    }
    let tainted: Vec<bool> = inner(&mut twin.taint).iter().map(|&taint| taint != 0).collect();
    for (place, byte) in inner(&mut twin.memory).iter_mut().enumerate() {
        if play.is_seen(plugin, place) && tainted.get(place) == Some(&true) {
            *byte = random.word() as u8;
        }
    }
    twin
}

/// A plugin's state with 0 for each byte that is tainted.
fn public(held: &Held) -> running::State {
    let mut state = state_of(&held.session, &held.vectors);
    for (value, taint) in state.registers.iter_mut().zip(&state.taints) {
        let bytes = value.to_le_bytes();
        *value = u64::from_le_bytes(from_fn(|byte| if taint[byte] { 0 } else { bytes[byte] }));
    }
    for (value, taint) in state.vectors.iter_mut().zip(&state.vector_taints) {
        let bytes = value.to_le_bytes();
        *value = u128::from_le_bytes(from_fn(|byte| if taint[byte] { 0 } else { bytes[byte] }));
    }
    state
}

/// Demand 3 for each plugin: two sequences with the same untainted bytes of what it has and may load, whatever is tainted of them
/// and whatever the other plugin does in between, show the same after each of its turns.
#[test]
fn each_plugin_keeps_its_secrets() {
    let mut random = Random::new(33);
    let (mut done, mut secrets) = (0, 0);
    for _ in 0..60_000 {
        let turns = 1 + random.below(7);
        let mut play = any_play(&mut random, turns);
        let plugin = random.below(2);
        let before = play.clone();
        let mut twin = with_other_secrets(&mut random, &play, plugin);
        if random.once_in(2) {
            twin = exchanged(&mut random, &twin, plugin);
        }
        for at in 0..turns {
            let (ours, theirs) = (play.turn(at), twin.turn(at));
            if play.turns[at].plugin != plugin {
                continue;
            }
            done += ours.steps;
            let said = |reply: &RunReply| (reply.steps, reply.answer, reply.code, reply.address);
            assert_eq!(said(&ours), said(&theirs), "turn {at}, {}", before.show());
            let (one, other) = (&play.plugins[plugin], &twin.plugins[plugin]);
            assert_eq!(public(one), public(other), "turn {at}, {}", before.show());
            secrets += u64::from(one != other);
            assert!(play.turns[at].trace == twin.turns[at].trace, "turn {at}, {}", before.show());
            assert!(play.turns[at].statuses == twin.turns[at].statuses, "turn {at}, {}", before.show());
            let shown = |play: &Play| -> Vec<Option<u8>> {
                play.seen(plugin).into_iter().map(|(byte, taint)| (taint == 0).then_some(byte)).collect()
            };
            assert_eq!(shown(&play), shown(&twin), "turn {at}, {}", before.show());
        }
    }
    assert!(done > 40_000 && secrets > 20_000, "{done} steps, {secrets} turns with other secrets");
}

/// What [`Shared`] does is what the library does with each plugin's own ranges and records.
#[test]
fn shared_is_its_turns() {
    let mut random = Random::new(34);
    for _ in 0..20_000 {
        let turns = 1 + random.below(7);
        let mut play = any_play(&mut random, turns);
        let held = |at: usize| {
            let Held { session, vectors, own } = play.plugins[at].clone();
            (Session::from_raw(session, vectors), own)
        };
        let parts = TaintedBytes { bytes: inner(&mut play.memory).to_vec(), taint: inner(&mut play.taint).to_vec() };
        let memory = Memory::new(Window::at(play.origin).readonly(random.next()), parts);
        let mut shared = Shared::new(memory, play.shared, held(0), held(1));
        for at in 0..turns {
            let reply = play.turn(at);
            let turn = &play.turns[at];
            let plugin = if turn.plugin == 0 { Plugin::First } else { Plugin::Second };
            assert_eq!(shared.ranges(plugin), play.ranges(turn.plugin));
            turn.prepare(shared.session_mut(plugin).as_raw_mut().0);
            // An odd number of places has no room for one more row.
            let rows = (turn.trace.len() - 2 * GUARD) / 2;
            let mut trace = vec![Access::default(); rows];
            let mut statuses = vec![0; turn.statuses.len() - 2 * GUARD];
            let ran = shared.turn(plugin, &turn.words, &mut trace, &mut statuses);
            match ran {
                Ok(run) => assert_eq!((reply.answer, reply.steps), (0, run.steps as u64)),
                Err(refusal) => {
                    let said = (refusal.answer().into(), refusal.steps() as u64, refusal.address().unwrap_or(0));
                    assert_eq!((reply.answer, reply.steps, reply.address), said);
                }
            }
            let steps = reply.steps as usize;
            let written: Vec<u64> = trace[..steps].iter().flat_map(|row| [row.code, row.address]).collect();
            assert!(
                written == turn.trace[GUARD..][..2 * steps] && statuses[..steps] == turn.statuses[GUARD..][..steps]
            );
            for (plugin, held) in [Plugin::First, Plugin::Second].into_iter().zip(&play.plugins) {
                assert!(*shared.session(plugin) == Session::from_raw(held.session, held.vectors));
            }
            assert!(shared.memory().bytes() == inner(&mut play.memory));
            assert!(shared.memory().taint() == inner(&mut play.taint));
        }
    }
}

/// Shared, first and second, sixteen bytes each from 4096 on, and sixteen that are nobody's.
fn three(first: Session, second: Session) -> Shared<Vec<u8>, Vec<u8>> {
    let memory = Memory::zeroed(Window::at(4096), 64);
    Shared::new(memory, Range::new(4096, 16), (first, Range::new(4112, 16)), (second, Range::new(4128, 16)))
}

fn word(line: &str) -> u32 {
    line.parse::<Instruction>().unwrap().word()
}

/// The answer of the first plugin's word, with this number in x1.
fn answer(line: &str, x1: u64) -> Result<(), (Answer, Option<u64>)> {
    let mut session = Session::new();
    session.set(Register::X1, x1, Taint::NONE);
    session.set_pc(x1 & !3);
    let ended = three(session, Session::new()).step(Plugin::First, word(line));
    ended.map(|_| ()).map_err(|refusal: Refusal| (refusal.answer(), refusal.address()))
}

#[test]
fn accesses_about_every_edge() {
    for (line, x1) in [
        ("ldrb w0, [x1]", 4096),
        ("ldr x0, [x1]", 4104),
        ("strb w0, [x1]", 4112),
        ("strb w0, [x1]", 4127),
        ("stp x2, x3, [x1]", 4112),
        ("ldp x2, x3, [x1]", 4112),
        ("ldr x0, #0", 4100),
        ("prfm pldl1keep, [x1]", 0),
        ("prfm pldl1keep, [x1]", 4128),
    ] {
        assert_eq!(answer(line, x1), Ok(()), "{line} at {x1}");
    }
    for (line, x1, refused) in [
        ("ldrb w0, [x1]", 4128, Answer::NotAllowed),
        ("strb w0, [x1]", 4128, Answer::NotAllowed),
        ("ldrb w0, [x1]", 4144, Answer::NotAllowed),
        ("strb w0, [x1]", 4159, Answer::NotAllowed),
        ("ldr x0, [x1]", 4105, Answer::NotAllowed),
        ("ldr x0, [x1]", 4111, Answer::NotAllowed),
        ("ldr x0, [x1]", 4121, Answer::NotAllowed),
        ("str x0, [x1]", 4121, Answer::NotAllowed),
        ("ldr x0, #0", 4124, Answer::NotAllowed),
        ("strb w0, [x1]", 4096, Answer::ReadOnly),
        ("strb w0, [x1]", 4111, Answer::ReadOnly),
        ("str x0, [x1]", 4105, Answer::ReadOnly),
        ("str x0, [x1]", 4111, Answer::ReadOnly),
        ("ldrb w0, [x1]", 4095, Answer::OutOfWindow),
        ("ldrb w0, [x1]", 4160, Answer::OutOfWindow),
        ("str x0, [x1]", 4153, Answer::OutOfWindow),
        ("str x0, [x1]", 4092, Answer::OutOfWindow),
        ("ldaxr w0, [x1]", 4129, Answer::Misaligned),
    ] {
        assert_eq!(answer(line, x1), Err((refused, Some(x1))), "{line} at {x1}");
    }
}

/// Ranges that don't go together are answer 1 in every turn, to both plugins, and before 10; empty ones may stand anywhere
/// inside the window.
#[test]
fn ranges_that_do_not_go_together() {
    let answers = |shared, first, second| {
        let memory = Memory::zeroed(Window::at(4096), 64);
        let mut both = Shared::new(memory, shared, (Session::new(), first), (Session::new(), second));
        let prefetch = [word("prfm pldl1keep, [x1]")];
        let answers = [Plugin::First, Plugin::Second, Plugin::First].map(|plugin| {
            let short = both.turn(plugin, &prefetch, &mut [], &mut []).unwrap_err().answer();
            let ended = both.step(plugin, prefetch[0]).map_or_else(|refusal| refusal.answer(), |_| Answer::Done);
            assert_eq!(short == Answer::NoRoom, ended == Answer::Done);
            ended
        });
        assert!(answers.iter().all(|answer| *answer == answers[0]));
        answers[0]
    };
    let (shared, first, second) = (Range::new(4096, 16), Range::new(4112, 16), Range::new(4128, 32));
    assert_eq!(answers(shared, first, second), Answer::Done);
    for empty in [4096, 4100, 4112, 4159, 4160] {
        assert_eq!(answers(Range::new(empty, 0), first, second), Answer::Done, "{empty}");
        assert_eq!(answers(shared, first, Range::new(empty, 0)), Answer::Done, "{empty}");
    }
    for empty in [0, 4095, 4161, u64::MAX] {
        assert_eq!(answers(shared, first, Range::new(empty, 0)), Answer::BadWindow, "{empty}");
        assert_eq!(answers(shared, Range::new(empty, 0), second), Answer::BadWindow, "{empty}");
        assert_eq!(answers(Range::new(empty, 0), first, second), Answer::BadWindow, "{empty}");
    }
    let wrong = [
        (Range::new(4096, 17), first, second),
        (shared, Range::new(4111, 17), second),
        (shared, Range::new(4112, 17), second),
        (shared, first, Range::new(4127, 33)),
        (shared, first, Range::new(4128, 33)),
        (Range::new(4095, 17), first, second),
        (shared, first, Range::new(4096, 1)),
        (shared, first, shared),
        (shared, first, first),
        (shared, first, Range::new(4128, u64::MAX)),
    ];
    for (at, (shared, first, second)) in wrong.into_iter().enumerate() {
        assert_eq!(answers(shared, first, second), Answer::BadWindow, "{at}");
    }
}

/// A refused turn ends itself alone, and the next one starts from what it left.
#[test]
fn a_refused_turn_ends_itself_alone() {
    let mut first = Session::new();
    first.set(Register::X1, 4112, Taint::NONE);
    first.set(Register::X2, 0x1234, Taint::NONE);
    let mut both = three(first.clone(), first);
    let words = [word("str x2, [x1], #8"), word("ldr x2, [x1, #64]"), word("str x1, [x1]")];
    let (mut trace, mut statuses) = ([Access::default(); 3], [9; 3]);
    let refusal = both.turn(Plugin::First, &words, &mut trace, &mut statuses).unwrap_err();
    assert_eq!((refusal.answer(), refusal.steps(), refusal.word()), (Answer::OutOfWindow, 1, Some(words[1])));
    assert_eq!(statuses, [0, 9, 9]);
    let other = both.turn(Plugin::Second, &words, &mut trace, &mut statuses).unwrap_err();
    assert_eq!((other.answer(), other.steps(), other.address()), (Answer::NotAllowed, 0, Some(4112)));
    let run = both.turn(Plugin::First, &words[2..], &mut trace, &mut statuses).unwrap();
    assert_eq!((run.steps, run.last.access), (1, Access { code: 72, address: 4120 }));
    assert_eq!(both.session(Plugin::First).known(Register::X1), Some(4120));
    assert_eq!(both.session(Plugin::First).pc(), 8);
    assert_eq!(both.session(Plugin::Second).pc(), 0);
    let (memory, first, second) = both.into_parts();
    assert_eq!((memory.bytes()[16..18].to_vec(), memory.bytes()[24..26].to_vec()), (vec![0x34, 0x12], vec![24, 16]));
    assert_eq!((first.known(Register::X1), second.known(Register::X1)), (Some(4120), Some(4112)));
}

/// No turn of the other's opens a monitor, and a write of the host's does where it is watched.
#[test]
fn a_monitor_is_its_plugins_own() {
    let mut first = Session::new();
    first.set(Register::X1, 4112, Taint::NONE);
    let mut second = Session::new();
    second.set(Register::X1, 4128, Taint::NONE);
    let mut both = three(first, second);
    let (load, store) = (word("ldxr w2, [x1]"), word("stxr w3, w2, [x1]"));
    let armed = |both: &Shared<Vec<u8>, Vec<u8>>, plugin| both.session(plugin).monitor().map(|found| found.address);
    both.step(Plugin::First, load).unwrap();
    both.step(Plugin::Second, load).unwrap();
    assert!(!both.step(Plugin::Second, store).unwrap().failed);
    assert_eq!((armed(&both, Plugin::First), armed(&both, Plugin::Second)), (Some(4112), None));
    both.write(4128, &[1; 16], false).unwrap();
    assert_eq!(armed(&both, Plugin::First), Some(4112));
    assert_eq!(both.write(4150, &[1; 16], false).unwrap_err().answer(), Answer::OutOfWindow);
    both.write(4096, &[1; 17], false).unwrap();
    assert_eq!(armed(&both, Plugin::First), None);
    assert!(both.step(Plugin::First, store).unwrap().failed);
    both.session_mut(Plugin::Second).set_monitor(Some(Monitor { address: 4128, bytes: 4 }));
    both.parts_mut().bytes[63] = 5;
    assert_eq!((armed(&both, Plugin::Second), both.memory().bytes()[63]), (None, 5));
}

#[test]
fn what_is_shown_has_no_secret() {
    let mut first = Session::new();
    first.set(Register::X3, 0x5ec2e7, Taint::ALL);
    let shown = format!("{:?}", three(first, Session::new()));
    assert!(!shown.contains("5ec2e7") && shown.contains("0x****************") && shown.contains("length: 64"));
    assert_eq!(Plugin::First.other(), Plugin::Second);
    assert_eq!(Plugin::Second.other(), Plugin::First);
    assert_eq!(Step::default().to_string(), "prefetch");
}
