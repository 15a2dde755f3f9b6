//! The only unsafe code: the functions of `libmilestarling.a`, and their safe forms over slices.

#![allow(unsafe_code)]

use crate::raw::{
    DecodeReply, ImportReply, Lister, ListerReply, Numbers, RescueReply, RunReply, SessionRecord, StepReply, TextReply,
    VectorReply, WhyReply, WordReply,
};
use crate::{Ranges, Taint};

extern "C" {
    fn milestarling_version() -> u32;
    fn milestarling_run(
        words: *const u32,
        words_len: usize,
        session: SessionRecord,
        vectors: *mut [u64; 2],
        vector_taint: *mut [Taint; 2],
        origin: u64,
        readonly: u64,
        memory: *mut u8,
        memory_len: usize,
        taint: *mut u8,
        taint_len: usize,
        trace: *mut u64,
        trace_len: usize,
        statuses: *mut u8,
        statuses_len: usize,
    ) -> RunReply;
    fn milestarling_turn(
        words: *const u32,
        words_len: usize,
        session: SessionRecord,
        vectors: *mut [u64; 2],
        vector_taint: *mut [Taint; 2],
        origin: u64,
        ranges: Ranges,
        memory: *mut u8,
        memory_len: usize,
        taint: *mut u8,
        taint_len: usize,
        trace: *mut u64,
        trace_len: usize,
        statuses: *mut u8,
        statuses_len: usize,
    ) -> RunReply;
    fn milestarling_step(
        word: u32,
        session: *mut SessionRecord,
        vectors: *mut [u64; 2],
        vector_taint: *mut [Taint; 2],
        origin: u64,
        readonly: u64,
        memory: *mut u8,
        memory_len: usize,
        taint: *mut u8,
        taint_len: usize,
    ) -> StepReply;
    fn milestarling_set_register(session: *mut SessionRecord, number: u32, value: u64, taint: Taint);
    fn milestarling_vector(number: u32, vectors: *const [u64; 2], vector_taint: *const [Taint; 2]) -> VectorReply;
    fn milestarling_set_vector(
        vectors: *mut [u64; 2],
        vector_taint: *mut [Taint; 2],
        number: u32,
        low: u64,
        high: u64,
        taint_low: Taint,
        taint_high: Taint,
    );
    fn milestarling_opened(session: SessionRecord) -> SessionRecord;
    fn milestarling_observed(session: SessionRecord, code: u64, address: u64, status: u64) -> SessionRecord;
    fn milestarling_text(word: u32, buffer: *mut u8, buffer_len: usize) -> TextReply;
    fn milestarling_word(text: *const u8, text_len: usize) -> WordReply;
    fn milestarling_list(bytes: *const u8, bytes_len: usize, output: *mut u8, output_len: usize) -> TextReply;
    fn milestarling_rescue(
        input: *const u8,
        input_len: usize,
        output: *mut u8,
        output_len: usize,
        report: *mut u8,
        report_len: usize,
    ) -> RescueReply;
    fn milestarling_lister_push(
        lister: Lister,
        fragment: *const u8,
        fragment_len: usize,
        output: *mut u8,
        output_len: usize,
    ) -> ListerReply;
    fn milestarling_lister_close(lister: Lister, output: *mut u8, output_len: usize) -> ListerReply;
    fn milestarling_classify(word: u32) -> u64;
    fn milestarling_touches_memory(word: u32) -> u64;
    fn milestarling_decode(word: u32) -> DecodeReply;
    fn milestarling_encode(numbers: Numbers) -> WordReply;
    fn milestarling_why(
        words: *const u32,
        words_len: usize,
        trace: *const u64,
        trace_len: usize,
        statuses: *const u8,
        statuses_len: usize,
        steps: u64,
        register_taint: *const Taint,
        vector_taint: *const [Taint; 2],
        taint: *const u8,
        taint_len: usize,
        origin: u64,
        readonly: u64,
        memory_length: u64,
        step: u64,
        kind: u64,
        number: u64,
        byte: u64,
        links: *mut u64,
        links_len: usize,
    ) -> WhyReply;
    fn milestarling_import(
        text: *const u8,
        text_len: usize,
        origin: u64,
        readonly: u64,
        memory: *mut u8,
        memory_len: usize,
        taint: *mut u8,
        taint_len: usize,
    ) -> ImportReply;
}

// All are proved for any numbers and any slices, without a trap and without an endless loop. What is left for a
// caller to see to is what a slice promises: its bytes are there, and nobody else writes them, or reads what a `&mut`
// lends, during the call. A Rust slice promises just that, so these functions are safe.

#[allow(clippy::too_many_arguments)]
#[inline]
pub(crate) fn run(
    words: &[u32],
    session: SessionRecord,
    vectors: &mut [[u64; 2]; 32],
    vector_taint: &mut [[Taint; 2]; 32],
    origin: u64,
    readonly: u64,
    memory: &mut [u8],
    taint: &mut [u8],
    trace: &mut [u64],
    statuses: &mut [u8],
) -> RunReply {
    // SAFETY: each pointer and length come from one slice, the arrays have 32 elements, and the record is of C's layout, of
    // which any bits are one.
    unsafe {
        milestarling_run(
            words.as_ptr(),
            words.len(),
            session,
            vectors.as_mut_ptr(),
            vector_taint.as_mut_ptr(),
            origin,
            readonly,
            memory.as_mut_ptr(),
            memory.len(),
            taint.as_mut_ptr(),
            taint.len(),
            trace.as_mut_ptr(),
            trace.len(),
            statuses.as_mut_ptr(),
            statuses.len(),
        )
    }
}

#[allow(clippy::too_many_arguments)]
#[inline]
pub(crate) fn turn(
    words: &[u32],
    session: SessionRecord,
    vectors: &mut [[u64; 2]; 32],
    vector_taint: &mut [[Taint; 2]; 32],
    origin: u64,
    ranges: Ranges,
    memory: &mut [u8],
    taint: &mut [u8],
    trace: &mut [u64],
    statuses: &mut [u8],
) -> RunReply {
    // SAFETY: each pointer and length come from one slice, the arrays have 32 elements, and record and ranges are of C's layout,
    // of which any bits are one.
    unsafe {
        milestarling_turn(
            words.as_ptr(),
            words.len(),
            session,
            vectors.as_mut_ptr(),
            vector_taint.as_mut_ptr(),
            origin,
            ranges,
            memory.as_mut_ptr(),
            memory.len(),
            taint.as_mut_ptr(),
            taint.len(),
            trace.as_mut_ptr(),
            trace.len(),
            statuses.as_mut_ptr(),
            statuses.len(),
        )
    }
}

#[allow(clippy::too_many_arguments)]
#[inline]
pub(crate) fn step(
    word: u32,
    session: &mut SessionRecord,
    vectors: &mut [[u64; 2]; 32],
    vector_taint: &mut [[Taint; 2]; 32],
    origin: u64,
    readonly: u64,
    memory: &mut [u8],
    taint: &mut [u8],
) -> StepReply {
    // SAFETY: each pointer and length come from one slice, the arrays have 32 elements, and the record is of C's layout, of
    // which any bits are one.
    unsafe {
        milestarling_step(
            word,
            session,
            vectors.as_mut_ptr(),
            vector_taint.as_mut_ptr(),
            origin,
            readonly,
            memory.as_mut_ptr(),
            memory.len(),
            taint.as_mut_ptr(),
            taint.len(),
        )
    }
}

#[inline]
pub(crate) fn set_register(session: &mut SessionRecord, number: u32, value: u64, taint: Taint) {
    // SAFETY: the record is of C's layout, of which any bits are one.
    unsafe { milestarling_set_register(session, number, value, taint) }
}

#[inline]
pub(crate) fn vector(number: u32, vectors: &[[u64; 2]; 32], vector_taint: &[[Taint; 2]; 32]) -> VectorReply {
    // SAFETY: the arrays have 32 elements.
    unsafe { milestarling_vector(number, vectors.as_ptr(), vector_taint.as_ptr()) }
}

#[inline]
pub(crate) fn set_vector(
    vectors: &mut [[u64; 2]; 32],
    vector_taint: &mut [[Taint; 2]; 32],
    number: u32,
    [low, high]: [u64; 2],
    [taint_low, taint_high]: [Taint; 2],
) {
    // SAFETY: the arrays have 32 elements.
    unsafe {
        milestarling_set_vector(
            vectors.as_mut_ptr(),
            vector_taint.as_mut_ptr(),
            number,
            low,
            high,
            taint_low,
            taint_high,
        );
    }
}

#[inline]
pub(crate) fn opened(session: SessionRecord) -> SessionRecord {
    // SAFETY: the record is of C's layout, of which any bits are one.
    unsafe { milestarling_opened(session) }
}

#[inline]
pub(crate) fn observed(session: SessionRecord, code: u64, address: u64, status: u64) -> SessionRecord {
    // SAFETY: the record is of C's layout, of which any bits are one.
    unsafe { milestarling_observed(session, code, address, status) }
}

#[inline]
pub(crate) fn text(word: u32, buffer: &mut [u8]) -> TextReply {
    // SAFETY: pointer and length come from one slice.
    unsafe { milestarling_text(word, buffer.as_mut_ptr(), buffer.len()) }
}

#[inline]
pub(crate) fn word(text: &[u8]) -> WordReply {
    // SAFETY: pointer and length come from one slice.
    unsafe { milestarling_word(text.as_ptr(), text.len()) }
}

#[inline]
pub(crate) fn list(bytes: &[u8], output: &mut [u8]) -> TextReply {
    // SAFETY: each pointer and length come from one slice.
    unsafe { milestarling_list(bytes.as_ptr(), bytes.len(), output.as_mut_ptr(), output.len()) }
}

#[inline]
pub(crate) fn rescue(input: &[u8], output: &mut [u8], report: &mut [u8]) -> RescueReply {
    // SAFETY: each pointer and length come from one slice.
    unsafe {
        milestarling_rescue(
            input.as_ptr(),
            input.len(),
            output.as_mut_ptr(),
            output.len(),
            report.as_mut_ptr(),
            report.len(),
        )
    }
}

#[inline]
pub(crate) fn lister_push(lister: Lister, fragment: &[u8], output: &mut [u8]) -> ListerReply {
    // SAFETY: each pointer and length come from one slice.
    unsafe { milestarling_lister_push(lister, fragment.as_ptr(), fragment.len(), output.as_mut_ptr(), output.len()) }
}

#[inline]
pub(crate) fn lister_close(lister: Lister, output: &mut [u8]) -> ListerReply {
    // SAFETY: pointer and length come from one slice.
    unsafe { milestarling_lister_close(lister, output.as_mut_ptr(), output.len()) }
}

#[inline]
pub(crate) fn version() -> u32 {
    // SAFETY: only a number crosses.
    unsafe { milestarling_version() }
}

#[inline]
pub(crate) fn classify(word: u32) -> u64 {
    // SAFETY: only numbers cross.
    unsafe { milestarling_classify(word) }
}

#[inline]
pub(crate) fn touches_memory(word: u32) -> u64 {
    // SAFETY: only numbers cross.
    unsafe { milestarling_touches_memory(word) }
}

#[inline]
pub(crate) fn decode(word: u32) -> DecodeReply {
    // SAFETY: only numbers cross.
    unsafe { milestarling_decode(word) }
}

#[inline]
pub(crate) fn encode(numbers: Numbers) -> WordReply {
    // SAFETY: only numbers cross.
    unsafe { milestarling_encode(numbers) }
}

#[allow(clippy::too_many_arguments)]
#[inline]
pub(crate) fn why(
    words: &[u32],
    trace: &[u64],
    statuses: &[u8],
    steps: u64,
    register_taint: &[Taint; 32],
    vector_taint: &[[Taint; 2]; 32],
    taint: &[u8],
    origin: u64,
    readonly: u64,
    memory_length: u64,
    step: u64,
    kind: u64,
    number: u64,
    byte: u64,
    links: &mut [u64],
) -> WhyReply {
    // SAFETY: each pointer and length come from one slice, and the arrays have 32 elements.
    unsafe {
        milestarling_why(
            words.as_ptr(),
            words.len(),
            trace.as_ptr(),
            trace.len(),
            statuses.as_ptr(),
            statuses.len(),
            steps,
            register_taint.as_ptr(),
            vector_taint.as_ptr(),
            taint.as_ptr(),
            taint.len(),
            origin,
            readonly,
            memory_length,
            step,
            kind,
            number,
            byte,
            links.as_mut_ptr(),
            links.len(),
        )
    }
}

#[inline]
pub(crate) fn import(text: &[u8], origin: u64, readonly: u64, memory: &mut [u8], taint: &mut [u8]) -> ImportReply {
    // SAFETY: each pointer and length come from one slice.
    unsafe {
        milestarling_import(
            text.as_ptr(),
            text.len(),
            origin,
            readonly,
            memory.as_mut_ptr(),
            memory.len(),
            taint.as_mut_ptr(),
            taint.len(),
        )
    }
}

/// The trace as the library writes it, two numbers for each step.
#[inline]
pub(crate) fn rows(trace: &mut [crate::Access]) -> &mut [u64] {
    // SAFETY: an `Access` is two `u64` in C's layout, without padding, and any two numbers are one.
    unsafe { std::slice::from_raw_parts_mut(trace.as_mut_ptr().cast(), trace.len() * 2) }
}

/// The trace as the library reads it.
#[inline]
pub(crate) fn rows_of(trace: &[crate::Access]) -> &[u64] {
    // SAFETY: an `Access` is two `u64` in C's layout, without padding.
    unsafe { std::slice::from_raw_parts(trace.as_ptr().cast(), trace.len() * 2) }
}
