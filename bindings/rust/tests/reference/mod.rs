//! The rules of documents 01 and 02 once more, in plain Rust, to hold the library against.
//!
//! Written from them alone: nothing here was taken from the proved code or from the model in `tools/`. It is laid out as
//! one would write it without a proof in mind, with the state changed in place, so that it is a fair opponent in the
//! benchmark too. Only `reading` stands for something that 01 says in the other direction: it takes a line apart by
//! its grammar and never prints one, so that writer and reader are two witnesses and not one.

// Each test takes the part that it needs.
#![allow(dead_code)]

pub mod decoding;
pub mod explaining;
pub mod listing;
pub mod reading;
pub mod running;
pub mod streaming;
pub mod writing;

// The answer numbers.
pub const DONE: u8 = 0;
pub const BAD_WINDOW: u8 = 1;
pub const NOT_IN_SET: u8 = 2;
pub const UNDEFINED: u8 = 3;
pub const UNPREDICTABLE: u8 = 4;
pub const TAINTED_ADDRESS: u8 = 5;
pub const MISALIGNED: u8 = 6;
pub const OUT_OF_WINDOW: u8 = 7;
pub const READ_ONLY: u8 = 8;
pub const NO_SUCH_TEXT: u8 = 9;
pub const NO_ROOM: u8 = 10;
pub const NO_SUCH_INSTRUCTION: u8 = 11;
pub const NOT_ALLOWED: u8 = 12;
pub const CLOSED: u8 = 16;
pub const BAD_TRACE: u8 = 17;
pub const AFTER_END: u8 = 18;
