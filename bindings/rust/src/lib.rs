//! The loads and stores of an AArch64 emulator, for Rust hosts.
//!
//! The work is done by a static library that is written and proved in Rattle; this package only gives it Rust's types.
//! Every word, every state and every text gets an answer, and nobody has to check first: a refusal is a [`Refusal`],
//! carries its number in documents 01 and 02 and changes nothing.
//!
//! - [`Session`] is one session's registers, with their taints, its [`Vectors`], PC and the monitor of exclusive accesses. It
//!   does steps and runs in a [`Memory`], which owns its bytes and their taints or borrows them, and [`step_in`] does so in
//!   several.
//! - [`Memory::import_hex`] reads a memory image in Intel HEX.
//! - [`Shared`] has two plugins that take turns in one memory, and neither sees anything of the other.
//! - [`Taint`] says which bytes of a register are secret, and [`VectorTaint`] which of a vector register.
//! - [`Past`] does a run and keeps what it leaves with the taints that it started with, tells why a byte is tainted, and has a
//!   text without values, for a help desk.
//! - [`Instruction`] goes from words to lines of text and back, and to [`Numbers`] and back, for which [`Family`], [`Operation`]
//!   and others are names.
//! - [`words`] goes through an image, word by word, and [`touches_memory`] says which words a host steps.
//! - [`listing`] lists bytes, and [`Lister`] and [`ListingWriter`] list what comes in fragments.
//! - [`rescue`] makes a listing of one that was damaged, and says what became of each line.
//! - [`raw`] has the library's functions as they are.
//!
//! # The host's loop
//!
//! Loads and stores are done here, and all other words are the host's to compute. So it asks [`touches_memory`] of each word
//! first. One that touches memory is stepped, and the plugin is stopped where the step is refused. That goes for
//! [`Answer::NotInSet`] too: it is then a load or store that isn't taken, such as an atomic one or one of a vector's elements,
//! and to pass it over or to compute it would lose bytes and taints in silence. One that doesn't touch memory is computed, and
//! the host adds 4 to PC or branches itself ([`Session::set_pc`]). The answer by itself doesn't tell the two apart.
//!
//! # The host's own duty
//!
//! Taints (documents 01 and 02 call them marks) follow the bytes of a value through the loads and stores that are done here,
//! and nowhere else. A host that computes between two steps must carry them itself: [`Taint`] says which operation spreads how,
//! and [`Session::get`] and [`Session::set`] take a value together with its taint. And it must not branch on a value with a
//! tainted byte, nor take one for an address of its own: [`Session::known`] has none. A host that loads a letter of a password
//! into X1, sets X2 to `x1 & 15` without its taint, and then steps `ldrb w3, [x7, x2]`, is not refused, and the trace tells the
//! password. A value that the plugin needs to branch on, though it came of a secret, such as a length or the verdict on a
//! password, is the host's to give out, by setting its register with [`Taint::NONE`]: docs/SECRECY.md. `examples/plugin.rs` is
//! a host that does its duty. And where several sessions share memory, each one's monitor observes what the others do
//! ([`Session::observe`], [`Session::observe_run`]); in a [`Shared`] they needn't, since neither plugin stores to what the other
//! may load.
//!
//! # An example
//!
//! ```
//! use milestarling::{Instruction, Memory, Register, Session, Taint, Window};
//!
//! # fn main() -> Result<(), milestarling::Refusal> {
//! let mut memory = Memory::zeroed(Window::at(4096), 64);
//! let mut session = Session::new();
//! session.set(Register::SP, 4096 + 64, Taint::NONE);
//! session.set(Register::X19, 0x1234, Taint::NONE);
//!
//! let push: Instruction = "str x19, [sp, #-16]!".parse()?;
//! let done = session.step(&mut memory, push.word())?;
//! assert!(done.access.is_store());
//! assert_eq!(Some(done.access.address), session.known(Register::SP));
//! assert_eq!(memory.bytes()[48..50], [0x34, 0x12]);
//! # Ok(())
//! # }
//! ```

#![deny(missing_docs)]
#![deny(unsafe_code)]

mod answer;
mod ffi;
mod image;
mod import;
mod memory;
mod numbers;
mod operation;
mod past;
mod place;
pub mod raw;
mod register;
mod rescue;
mod session;
mod shared;
mod shown;
mod stream;
mod taint;
mod text;
mod trace_text;
mod vectors;

pub use answer::{Answer, Refusal, UnknownAnswer};
pub use image::{words, Words};
pub use import::ImportError;
pub use memory::{step_in, Access, Memory, TaintedBytes, Window};
pub use numbers::{classify, touches_memory};
pub use operation::{
    Direction, ExclusiveOperation, Extend, Family, LiteralOperation, Operation, PairMode, PairOperation, SizedOperation,
};
pub use past::{Past, Start};
pub use place::{Copied, Link, Place};
pub use raw::Numbers;
pub use register::{Register, UnknownRegister, VectorRegister};
pub use rescue::{rescue, Fate, Fates, Rescued};
pub use session::{Monitor, Run, Session, Step};
pub use shared::{Plugin, Range, Ranges, Shared};
pub use stream::{Lister, ListingWriter};
pub use taint::{Taint, UnknownByte, VectorTaint};
pub use text::{list, listing, Instruction, LINE_MAX};
pub use trace_text::BadTraceText;
pub use vectors::Vectors;
