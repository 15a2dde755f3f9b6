//! Plain Rust as a peer of the benchmark: the second implementation of the rules, called from C.
//!
//!     rustc --edition 2021 -C opt-level=3 --crate-type staticlib reference.rs

#[allow(dead_code)]
#[path = "../rust/tests/reference/mod.rs"]
mod reference;

use reference::running::{self, Marks, Monitor, State, Window};
use std::slice::{from_raw_parts, from_raw_parts_mut};

/// `struct milestarling_session`.
#[repr(C)]
pub struct Session {
    value: [u64; 32],
    taint: [u64; 32],
    pc: u64,
    monitor_address: u64,
    monitor_size: u64,
}

/// `struct milestarling_vectors`.
#[repr(C)]
pub struct Vectors {
    value: [[u64; 2]; 32],
    taint: [[u64; 2]; 32],
}

/// `struct milestarling_memory`.
#[repr(C)]
pub struct Memory {
    bytes: *mut u8,
    length: usize,
    taint: *mut u8,
    taint_length: usize,
    origin: u64,
    readonly: u64,
}

fn marks(taint: u64) -> Marks {
    taint.to_le_bytes().map(|byte| byte != 0)
}

fn taint(marks: &[bool]) -> u64 {
    u64::from_le_bytes(std::array::from_fn(|byte| marks[byte] as u8))
}

/// The reference's own state, which `reference_end` takes back.
#[no_mangle]
pub extern "C" fn reference_begin(session: &Session, vectors: &Vectors) -> Box<State> {
    let vector_marks = |[low, high]: [u64; 2]| {
        let (low, high) = (marks(low), marks(high));
        std::array::from_fn(|byte| if byte < 8 { low[byte] } else { high[byte - 8] })
    };
    Box::new(State {
        registers: session.value,
        taints: session.taint.map(marks),
        pc: session.pc,
        monitor: Monitor { address: session.monitor_address, size: session.monitor_size },
        vectors: vectors.value.map(|[low, high]| (high as u128) << 64 | low as u128),
        vector_taints: vectors.taint.map(vector_marks),
    })
}

#[no_mangle]
pub extern "C" fn reference_end(state: Box<State>, session: &mut Session, vectors: &mut Vectors) {
    session.value = state.registers;
    session.taint = state.taints.map(|marks| taint(&marks));
    (session.pc, session.monitor_address, session.monitor_size) = (state.pc, state.monitor.address, state.monitor.size);
    vectors.value = state.vectors.map(|value| [value as u64, (value >> 64) as u64]);
    vectors.taint = state.vector_taints.map(|marks| [taint(&marks[..8]), taint(&marks[8..])]);
}

/// Returns the answer, and sets how many steps were done, and the address.
///
/// # Safety
///
/// What the pointers point to is as long as they say, and a trace has two numbers for each word.
#[no_mangle]
pub unsafe extern "C" fn reference_run(
    memory: &Memory,
    state: &mut State,
    words: *const u32,
    count: usize,
    trace: *mut u64,
    statuses: *mut u8,
    reply: &mut [u64; 4],
) {
    let outcome = running::run(
        from_raw_parts(words, count),
        state,
        Window { origin: memory.origin, readonly: memory.readonly },
        from_raw_parts_mut(memory.bytes, memory.length),
        from_raw_parts_mut(memory.taint, memory.taint_length),
        from_raw_parts_mut(trace, 2 * count),
        from_raw_parts_mut(statuses, count),
    );
    *reply = [outcome.steps, outcome.answer as u64, outcome.code, outcome.address];
}
