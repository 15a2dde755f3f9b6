//! The session's record: its layout, steps in place over random records, held against the reference, and what its monitor
//! observes.

mod reference;
mod support;

use milestarling::raw::{self, SessionRecord, StepReply, VectorReply, VectorsRecord};
use milestarling::{
    Access, Memory, Monitor, Register, Session, Step, Taint, TaintedBytes, VectorRegister, VectorTaint, Window as Place,
};
use reference::running::{self, Window};
use reference::DONE;
use std::mem::{align_of, size_of};
use std::ptr::addr_of;
use support::{about_power, any_word, kept_or_set, some_vectors, state_of, Random};

const CASES: usize = 400_000;
const ORIGIN: u64 = 0x1000;
const MEMORY: usize = 96;

// As the header has it.
const _: () = assert!(size_of::<SessionRecord>() == 536 && align_of::<SessionRecord>() == 8);
const _: () = assert!(size_of::<VectorsRecord>() == 1024 && align_of::<VectorsRecord>() == 8);
const _: () = assert!(size_of::<Session>() == size_of::<SessionRecord>() + size_of::<VectorsRecord>());
const _: () = assert!(size_of::<StepReply>() == 32 && align_of::<StepReply>() == 8);
const _: () = assert!(size_of::<VectorReply>() == 32 && align_of::<VectorReply>() == 8);

#[test]
fn the_record_is_that_of_the_header() {
    let record = SessionRecord::default();
    let start = addr_of!(record) as usize;
    let places = [
        addr_of!(record.value) as usize,
        addr_of!(record.value_taint) as usize,
        addr_of!(record.pc) as usize,
        addr_of!(record.monitor_address) as usize,
        addr_of!(record.monitor_size) as usize,
    ];
    assert_eq!(places.map(|place| place - start), [0, 256, 512, 520, 528]);
}

/// A taint of any bytes, of which so many in sixteen registers have none, and half of the others some.
fn any_taint(random: &mut Random, clear: u8) -> Taint {
    let any = random.next();
    let some = (0..8).filter(|byte| any >> byte & 1 == 1).fold(0, |mask, byte| mask | 0xff << (8 * byte));
    match random.below(32) as u8 {
        tainted if tainted < 2 * clear => Taint::NONE,
        tainted if tainted % 2 == 0 => Taint::from_raw(random.next() & some),
        _ => Taint::from_raw(random.next()),
    }
}

/// A record of any bits, of which most bases lead into memory.
fn any_record(random: &mut Random) -> SessionRecord {
    let mut record = SessionRecord::default();
    for value in &mut record.value {
        *value = match random.below(8) {
            0 => random.next(),
            1 => about_power(random),
            _ => ORIGIN + 8 * random.below(MEMORY / 8) as u64,
        };
    }
    if !random.once_in(8) {
        record.value[31] &= !15;
    }
    let clear = random.below(16) as u8;
    record.value_taint = record.value_taint.map(|_| any_taint(random, clear));
    record.pc = if random.once_in(64) { random.next() } else { ORIGIN + 4 * random.below(16) as u64 };
    record.monitor_address = if random.once_in(8) { random.next() } else { ORIGIN + 8 * random.below(4) as u64 };
    record.monitor_size = if random.once_in(8) { random.next() } else { 1 << random.below(4) };
    record
}

#[test]
fn a_step_in_place_is_the_reference() {
    let mut random = Random::new(9);
    let mut done = 0;
    for _ in 0..CASES {
        let (word, before) = (any_word(&mut random), any_record(&mut random));
        let rarity = 1 + random.below(8);
        let vectors_before = some_vectors(&mut random, rarity);
        let window = Window { origin: ORIGIN, readonly: random.below(MEMORY + 9) as u64 / 4 };
        let (mut memory, mut taint) = (vec![0; MEMORY], vec![0; MEMORY - random.once_in(99) as usize]);
        random.fill(&mut memory);
        taint.iter_mut().for_each(|byte| *byte = if random.once_in(4) { random.word() as u8 } else { 0 });

        let (mut record, mut vectors, mut ours, mut marks) = (before, vectors_before, memory.clone(), taint.clone());
        let reply = raw::step(
            word,
            &mut record,
            &mut vectors.value,
            &mut vectors.taint,
            window.origin,
            window.readonly,
            &mut ours,
            &mut marks,
        );
        let (mut state, mut status) = (state_of(&before, &vectors_before), [0]);
        let said = running::run(&[word], &mut state, window, &mut memory, &mut taint, &mut [0; 2], &mut status);

        let ours_said = (reply.answer, reply.code, reply.address, reply.status);
        assert_eq!(ours_said, (said.answer.into(), said.code, said.address, status[0].into()), "{word:08x}");
        assert!(ours == memory && marks == taint, "{word:08x}");
        assert_eq!(state_of(&record, &vectors), state, "{word:08x}");
        assert!(kept_or_set((&before, &vectors_before), (&record, &vectors)), "{word:08x}");
        if said.answer == DONE {
            done += 1;
        } else {
            assert_eq!((record, vectors), (before, vectors_before), "{word:08x}: a refusal");
        }
    }
    assert!(done > CASES / 20, "only {done} were done");
}

#[test]
fn setting_a_register_changes_that_one() {
    let mut random = Random::new(10);
    for _ in 0..20_000 {
        let before = any_record(&mut random);
        let number = if random.once_in(4) { about_power(&mut random) as u32 } else { random.below(34) as u32 };
        let (value, taint) = (random.next(), any_taint(&mut random, 4));
        let mut record = before;
        raw::set_register(&mut record, number, value, taint);
        let mut expected = before;
        if number < 32 {
            expected.value[number as usize] = value;
            expected.value_taint[number as usize] = taint;
        }
        assert_eq!(record, expected, "register {number}");
    }
}

#[test]
fn setting_a_vector_register_changes_that_one() {
    let mut random = Random::new(15);
    for _ in 0..20_000 {
        let mut before = VectorsRecord::default();
        before.value.iter_mut().flatten().for_each(|half| *half = random.next());
        before.taint.iter_mut().flatten().for_each(|half| *half = any_taint(&mut random, 4));
        let number = if random.once_in(4) { about_power(&mut random) as u32 } else { random.below(34) as u32 };
        let halves = [random.next(), random.next()];
        let taints = [any_taint(&mut random, 4), any_taint(&mut random, 4)];
        let (mut vectors, mut expected) = (before, before);
        raw::set_vector(&mut vectors.value, &mut vectors.taint, number, halves, taints);
        let mut found = VectorReply::default();
        if let Some(value) = expected.value.get_mut(number as usize) {
            *value = halves;
            expected.taint[number as usize] = taints;
            found = VectorReply { low: halves[0], high: halves[1], taint_low: taints[0], taint_high: taints[1] };
        }
        assert_eq!(vectors, expected, "vector register {number}");
        assert_eq!(raw::vector(number, &vectors.value, &vectors.taint), found, "vector register {number}");
    }
}

/// The record with its monitor open if one of the bytes that were stored is one that it watches, each as a whole number.
fn observed(record: &SessionRecord, code: u64, address: u64, status: u64) -> SessionRecord {
    let stored = if code >= 64 && status == 0 { u128::from(code - 64) } else { 0 };
    let (first, watch) = (u128::from(address), u128::from(record.monitor_address));
    let both = watch.max(first)..(watch + u128::from(record.monitor_size)).min(first + stored);
    let (monitor_address, monitor_size) =
        if both.is_empty() { (record.monitor_address, record.monitor_size) } else { (0, 0) };
    SessionRecord { monitor_address, monitor_size, ..*record }
}

#[test]
fn a_monitor_opens_by_what_another_stores() {
    let mut random = Random::new(13);
    let mut opened = 0;
    for _ in 0..CASES {
        let mut before = any_record(&mut random);
        if random.once_in(16) {
            before.monitor_size = 0;
        }
        let code = match random.below(8) {
            0 => about_power(&mut random),
            1 => random.below(64) as u64,
            _ => 64 + random.below(20) as u64,
        };
        let near = before.monitor_address.wrapping_add(random.below(32) as u64).wrapping_sub(20);
        let address = if random.once_in(8) { about_power(&mut random) } else { near };
        let status = if random.once_in(4) { about_power(&mut random) } else { 0 };

        let expected = observed(&before, code, address, status);
        assert_eq!(raw::observed(before, code, address, status), expected, "{code} {address:x} {status}");
        opened += usize::from(expected != before);
        let mut session = Session::from_raw(before, VectorsRecord::default());
        session.observe(Step::new(Access { code, address }, status.min(1) as u8));
        assert_eq!(session.as_raw_mut(), (&mut { expected }, &mut VectorsRecord::default()));
        let open = SessionRecord { monitor_address: 0, monitor_size: 0, ..before };
        assert_eq!(raw::opened(before), open);
    }
    assert!(opened > CASES / 20, "only {opened} were opened");
}

#[test]
fn a_run_is_observed_as_its_steps() {
    let store = |address| Access { code: 68, address };
    let trace = [Access { code: 4, address: 4096 }, store(4100), store(4096), store(4097)];
    let left = |statuses: &[u8], steps| {
        let mut session = Session::new();
        session.set_monitor(Some(Monitor { address: 4096, bytes: 4 }));
        session.observe_run(&trace, statuses, steps);
        session.monitor().is_some()
    };
    assert!(left(&[0; 4], 0) && left(&[0; 4], 2) && left(&[0, 0, 1, 1], 4) && left(&[0, 0], 4));
    assert!(!left(&[0; 4], 3) && !left(&[0; 4], 4) && !left(&[0; 4], 9) && !left(&[0, 0, 1, 0], 4));
}

#[test]
fn a_session_has_names_and_shows_no_secret() {
    let mut session = Session::new();
    session.set(Register::X3, 0x5ec2e7, Taint::bytes(..7));
    session.set(Register::SP, 0x2000, Taint::NONE);
    session.set_pc(64);
    assert_eq!(session.get(Register::X3), (0x5ec2e7, Taint::bytes(..7)));
    assert_eq!((session.known(Register::X3), session.known(Register::SP)), (None, Some(0x2000)));
    assert_eq!((session.pc(), session.monitor()), (64, None));
    session.vectors_mut().set(VectorRegister::V7, 0x5ec2e7 << 64 | 5, VectorTaint::bytes(8..11));
    let (&mut record, &mut vectors) = session.as_raw_mut();
    let reply = raw::vector(7, &vectors.value, &vectors.taint);
    let shown = format!("{session:?} {record:?} {vectors:?} {reply:?}");
    assert!(!shown.contains("5ec2e7") && shown.contains("0x00**************") && shown.contains("0x2000"));
    assert_eq!(shown.matches("0x0000000000******0000000000000005").count(), 3);

    session.as_raw_mut().0.monitor_address = 7;
    session.as_raw_mut().0.monitor_size = 8;
    assert_eq!(session.monitor().map(|monitor| (monitor.address, monitor.bytes)), Some((7, 8)));
    session.open();
    assert_eq!(session.monitor(), None);

    let mut memory = Memory::new(Place::at(0x2000), TaintedBytes { bytes: [1; 16], taint: [0; 16] });
    let done = session.step(&mut memory, 0xf9000fe3).unwrap_err(); // str x3, [sp, #24]
    assert_eq!((done.address(), done.word(), done.steps()), (Some(0x2018), Some(0xf9000fe3), 0));
    let done = session.step(&mut memory, 0xf90003e3).unwrap(); // str x3, [sp]
    assert_eq!((done.access.code, done.access.address, done.failed), (72, 0x2000, false));
    assert_eq!(memory.taint()[..9], [1, 1, 1, 1, 1, 1, 1, 0, 0]);
    assert!(Session::from_raw(*session.as_raw_mut().0, vectors) == session);
}
