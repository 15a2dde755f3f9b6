use crate::raw::{self, RunReply, SessionRecord, VectorsRecord};
use crate::shown::{known_bytes, Shown};
use crate::{ffi, Access, Answer, Memory, Ranges, Refusal, Register, Taint, TaintedBytes, Vectors};
use std::fmt;

/// One session: its registers with their taints, its [`Vectors`], PC, and the monitor of exclusive accesses.
///
/// A value goes in and comes out together with its taint, so that neither is dropped or kept by mistake: a host that
/// computes hands [`set`](Session::set) the taint that came of its operands' ([`Taint`] says how), and one that branches asks
/// for [`known`](Session::known), which has no value where a byte is tainted.
///
/// ```
/// use milestarling::{Answer, Memory, Register, Session, Taint, Window};
///
/// # fn main() -> Result<(), milestarling::Refusal> {
/// let mut memory = Memory::zeroed(Window::at(4096), 16);
/// memory.write(4104, b"s", true)?; // a letter of a password
/// let mut session = Session::new();
/// session.set(Register::X1, 4096, Taint::NONE);
///
/// let done = session.step(&mut memory, 0x39402020)?; // ldrb w0, [x1, #8]
/// assert_eq!(done.to_string(), "load of 1 at 0x1008");
/// assert_eq!(session.shown(Register::X0).to_string(), "0x00000000000000**");
///
/// // and x2, x0, #15, which the host computes, and its taint too
/// let (letter, taint) = session.get(Register::X0);
/// assert_eq!(taint, Taint::bytes(0..1));
/// session.set(Register::X2, letter & 15, taint);
/// // cbz x2, ..: the branch would tell the letter.
/// assert_eq!(session.known(Register::X2), None);
///
/// // A secret can't choose an address, and what is refused changes nothing.
/// let before = session.clone();
/// let refusal = session.step(&mut memory, 0x38626823).unwrap_err(); // ldrb w3, [x1, x2]
/// assert_eq!(refusal.answer(), Answer::TaintedAddress);
/// assert!(session == before);
/// # Ok(())
/// # }
/// ```
///
/// # The monitor
///
/// A load-exclusive arms it with its address and size, and a store-exclusive asks it: with the same address and size it
/// stores, and else it fails and stores nothing. Either way the monitor is open then; no other word of the session touches
/// it. On a processor it also opens when another stores to the bytes that it watches, and that is the host's to tell it:
///
/// - after another session's step in the same memory by [`observe`](Session::observe);
/// - after another session's run in it by [`observe_run`](Session::observe_run);
/// - after a write of the host's own, or of a thread that runs no session, by [`open`](Session::open); or by
///   [`observe`](Session::observe) with [`Access::store`], which opens it only where it watches the bytes.
///
/// Without that two sessions take one lock at once. To open it at each turn of another's, whatever that did, is no way out:
/// two sessions that take turns of one word then never take the lock. `examples/turns.rs` shows all three.
///
/// ```
/// use milestarling::{Memory, Register, Session, Taint, Window};
///
/// # fn main() -> Result<(), milestarling::Refusal> {
/// let mut memory = Memory::zeroed(Window::at(4096), 8);
/// let mut ours = Session::new();
/// ours.set(Register::X0, 4096, Taint::NONE);
/// ours.set(Register::X2, 1, Taint::NONE);
/// let mut theirs = ours.clone();
/// let (load, store) = (0x885ffc01, 0x88037c02); // ldaxr w1, [x0]; stxr w3, w2, [x0]
///
/// theirs.observe(ours.step(&mut memory, load)?);
/// ours.observe(theirs.step(&mut memory, load)?);
/// theirs.observe(ours.step(&mut memory, store)?);
/// let done = theirs.step(&mut memory, store)?;
/// assert_eq!(done.to_string(), "store of 4 at 0x1000, which failed");
/// assert_eq!((ours.known(Register::X3), theirs.known(Register::X3)), (Some(0), Some(1)));
/// # Ok(())
/// # }
/// ```
// The records that the library takes, so that a step converts nothing.
#[derive(Clone, Default, PartialEq, Eq)]
pub struct Session {
    record: SessionRecord,
    vectors: Vectors,
}

/// What a load-exclusive has armed: a store-exclusive stores exactly if it has the same address and the same bytes.
#[derive(Clone, Copy, Debug, PartialEq, Eq, Hash)]
pub struct Monitor {
    /// The address of the first byte.
    pub address: u64,
    /// How many bytes.
    pub bytes: u64,
}

/// What a step did.
#[derive(Clone, Copy, Debug, Default, PartialEq, Eq)]
#[non_exhaustive]
pub struct Step {
    /// Its access.
    pub access: Access,
    /// Whether it is a store-exclusive that failed: its access is shown, and it has stored nothing.
    pub failed: bool,
}

impl Step {
    /// The step of an access and of a status, as a run writes them.
    pub const fn new(access: Access, status: u8) -> Step {
        Step { access, failed: status != 0 }
    }
}

impl fmt::Display for Step {
    fn fmt(&self, f: &mut fmt::Formatter<'_>) -> fmt::Result {
        write!(f, "{}{}", self.access, if self.failed { ", which failed" } else { "" })
    }
}

/// A run whose words were all done.
#[derive(Clone, Copy, Debug, PartialEq, Eq)]
#[non_exhaustive]
pub struct Run {
    /// How many steps were done: one for each word.
    pub steps: usize,
    /// What the last one did; all 0 where there were no words.
    pub last: Step,
}

impl Session {
    /// All values 0, nothing tainted, and the monitor open.
    pub fn new() -> Session {
        Session::default()
    }

    /// A register's value, and which of its bytes are tainted.
    pub const fn get(&self, register: Register) -> (u64, Taint) {
        (self.record.value[register.number() as usize], self.record.value_taint[register.number() as usize].normal())
    }

    /// A register's value where no byte is tainted: one that a host may branch on, take for an address of its own, or show.
    pub const fn known(&self, register: Register) -> Option<u64> {
        if self.is_tainted(register) {
            return None;
        }
        Some(self.record.value[register.number() as usize])
    }

    /// The bytes of a register that aren't tainted, the lowest first.
    ///
    /// ```
    /// use milestarling::{Register, Session, Taint};
    ///
    /// let mut session = Session::new();
    /// session.set(Register::X0, 0x0503, Taint::bytes(0..1) | Taint::bytes(3..));
    /// assert_eq!(session.known_bytes(Register::X0), [None, Some(5), Some(0), None, None, None, None, None]);
    /// ```
    pub fn known_bytes(&self, register: Register) -> [Option<u8>; 8] {
        let (value, taint) = self.get(register);
        known_bytes(value.to_le_bytes(), |byte| taint.contains(byte))
    }

    /// Whether any byte of a register is tainted.
    pub const fn is_tainted(&self, register: Register) -> bool {
        !self.record.value_taint[register.number() as usize].is_none()
    }

    /// Sets a register's value and its taint: [`Taint`] has what an operation makes of those of its operands.
    pub fn set(&mut self, register: Register, value: u64, taint: Taint) {
        raw::set_register(&mut self.record, register.number(), value, taint);
    }

    /// A register's value as a log may have it, in hexadecimal digits: where a byte is tainted all sixteen, with `**` for each
    /// byte that is.
    ///
    /// ```
    /// use milestarling::{Register, Session, Taint};
    ///
    /// let mut session = Session::new();
    /// session.set(Register::X0, 0x7e5, Taint::NONE);
    /// assert_eq!(session.shown(Register::X0).to_string(), "0x7e5");
    /// session.set(Register::X0, 0x7e5, Taint::bytes(0..1));
    /// assert_eq!(session.shown(Register::X0).to_string(), "0x00000000000007**");
    /// ```
    pub fn shown(&self, register: Register) -> impl fmt::Display + fmt::Debug {
        Shown { known: self.known(register), bytes: self.known_bytes(register) }
    }

    /// The vector registers.
    pub const fn vectors(&self) -> &Vectors {
        &self.vectors
    }

    /// The vector registers, to be set by the host.
    ///
    /// ```
    /// use milestarling::{Session, VectorRegister, VectorTaint};
    ///
    /// let mut session = Session::new();
    /// session.vectors_mut().set(VectorRegister::V0, 1 << 127 | 5, VectorTaint::bytes(15..));
    /// assert_eq!(session.vectors().get(VectorRegister::V0).0, 1 << 127 | 5);
    /// assert_eq!(session.vectors().known(VectorRegister::V0), None);
    /// ```
    pub fn vectors_mut(&mut self) -> &mut Vectors {
        &mut self.vectors
    }

    /// The program counter. A step adds 4 to it where it is done, modulo 2^64, and keeps it where it is refused; a literal's
    /// address counts from it as it is before the step.
    pub const fn pc(&self) -> u64 {
        self.record.pc
    }

    /// Sets the program counter, as a host does that has computed a word by itself.
    pub fn set_pc(&mut self, pc: u64) {
        self.record.pc = pc;
    }

    /// The monitor; none where it is open.
    pub const fn monitor(&self) -> Option<Monitor> {
        match self.record.monitor_size {
            0 => None,
            bytes => Some(Monitor { address: self.record.monitor_address, bytes }),
        }
    }

    /// Sets the monitor; none opens it.
    pub fn set_monitor(&mut self, monitor: Option<Monitor>) {
        let Monitor { address, bytes } = monitor.unwrap_or(Monitor { address: 0, bytes: 0 });
        self.record.monitor_address = address;
        self.record.monitor_size = bytes;
    }

    /// Opens the monitor, whatever it watches: after a write that no step of a session did.
    pub fn open(&mut self) {
        self.record = raw::opened(self.record);
    }

    /// Opens the monitor if another session's step has stored a byte that it watches: a store-exclusive that failed, a load
    /// and a prefetch have not. A refused step has nothing to be observed.
    pub fn observe(&mut self, done: Step) {
        let Access { code, address } = done.access;
        self.record = raw::observed(self.record, code, address, done.failed.into());
    }

    /// Opens the monitor if another session's run has stored a byte that it watches.
    ///
    /// Trace and statuses are those that the run wrote, of which `steps` count: those of its [`Run`], or of its
    /// [`Refusal`].
    ///
    /// ```
    /// use milestarling::{Access, Memory, Monitor, Register, Session, Taint, Window};
    ///
    /// let mut memory = Memory::zeroed(Window::at(4096), 16);
    /// let (mut ours, mut theirs) = (Session::new(), Session::new());
    /// ours.set_monitor(Some(Monitor { address: 4096, bytes: 4 }));
    /// theirs.set(Register::X1, 4096, Taint::NONE);
    /// let words = [0xf9000420, 0xb9000020, 0]; // str x0, [x1, #8]; str w0, [x1]; not of the set
    /// let (mut trace, mut statuses) = ([Access::default(); 3], [0; 3]);
    /// let ran = theirs.run(&mut memory, &words, &mut trace, &mut statuses);
    /// let steps = ran.map_or_else(|refusal| refusal.steps(), |run| run.steps);
    /// ours.observe_run(&trace, &statuses, steps);
    /// assert!(steps == 2 && ours.monitor().is_none());
    /// ```
    pub fn observe_run(&mut self, trace: &[Access], statuses: &[u8], steps: usize) {
        for (&access, &status) in trace.iter().zip(statuses).take(steps) {
            if self.monitor().is_none() {
                return;
            }
            self.observe(Step::new(access, status));
        }
    }

    /// Does one word. Memory is little-endian: the byte at the lowest address is the lowest of a number.
    ///
    /// # Errors
    ///
    /// Answers 1 to 8. Nothing is changed then.
    pub fn step<M: AsRef<[u8]> + AsMut<[u8]>, T: AsRef<[u8]> + AsMut<[u8]>>(
        &mut self,
        memory: &mut Memory<M, T>,
        word: u32,
    ) -> Result<Step, Refusal> {
        let window = memory.window;
        let TaintedBytes { bytes, taint } = memory.parts_mut();
        let VectorsRecord { value, taint: value_taint } = self.vectors.as_raw_mut();
        let reply = raw::step(word, &mut self.record, value, value_taint, window.origin, window.readonly, bytes, taint);
        match Answer::of_reply(reply.answer) {
            Answer::Done => {
                let access = Access { code: reply.code, address: reply.address };
                Ok(Step { access, failed: reply.status != 0 })
            }
            answer => Err(Refusal::after(0, answer, reply.address).of_word(Some(&word))),
        }
    }

    /// Does a step for each word, up to the first refusal, and writes what each did into the trace, and its status: 1
    /// for a store-exclusive that failed, and else 0.
    ///
    /// The rest of the trace and of the statuses stays as it was. [`Past::run`](crate::Past::run) has lists of its own, and tells
    /// afterwards why a byte is tainted.
    ///
    /// # Errors
    ///
    /// Answer 1 or 10 (trace or statuses are shorter than the words) before anything is done, else 2 to 8 of the step
    /// that was refused: [`Refusal::steps`] says how many were done, and those stay done, and [`Refusal::word`] which it
    /// was.
    ///
    /// ```
    /// use milestarling::{Access, Answer, Memory, Register, Session, Taint, Window};
    ///
    /// let mut memory = Memory::zeroed(Window::at(4096), 32);
    /// let mut session = Session::new();
    /// session.set(Register::SP, 4128, Taint::NONE);
    /// let words = [
    ///     0xa9bf7bfd, // stp x29, x30, [sp, #-16]!
    ///     0xc8007fe1, // stxr w0, x1, [sp]: nothing has armed the monitor
    ///     0xf84107e0, // ldr x0, [sp], #16
    ///     0xf84107e0, // ldr x0, [sp], #16: behind the end
    /// ];
    /// let (mut trace, mut statuses) = ([Access::default(); 4], [9; 4]);
    /// let refusal = session.run(&mut memory, &words, &mut trace, &mut statuses).unwrap_err();
    /// assert_eq!((refusal.answer(), refusal.steps()), (Answer::OutOfWindow, 3));
    /// assert_eq!(trace[0].to_string(), "store of 16 at 0x1010");
    /// assert_eq!(trace[2].to_string(), "load of 8 at 0x1010");
    /// assert_eq!(statuses, [0, 1, 0, 9]);
    /// ```
    pub fn run<M: AsRef<[u8]> + AsMut<[u8]>, T: AsRef<[u8]> + AsMut<[u8]>>(
        &mut self,
        memory: &mut Memory<M, T>,
        words: &[u32],
        trace: &mut [Access],
        statuses: &mut [u8],
    ) -> Result<Run, Refusal> {
        let window = memory.window;
        let TaintedBytes { bytes, taint } = memory.parts_mut();
        let VectorsRecord { value, taint: value_taint } = self.vectors.as_raw_mut();
        let reply = raw::run(
            words,
            self.record,
            value,
            value_taint,
            window.origin,
            window.readonly,
            bytes,
            taint,
            ffi::rows(trace),
            statuses,
        );
        self.ended(reply, words, statuses)
    }

    /// Does a turn: a run that reaches what its ranges allow.
    pub(crate) fn turn<M: AsRef<[u8]> + AsMut<[u8]>, T: AsRef<[u8]> + AsMut<[u8]>>(
        &mut self,
        memory: &mut Memory<M, T>,
        ranges: Ranges,
        words: &[u32],
        trace: &mut [Access],
        statuses: &mut [u8],
    ) -> Result<Run, Refusal> {
        let origin = memory.window.origin;
        let TaintedBytes { bytes, taint } = memory.parts_mut();
        let VectorsRecord { value, taint: value_taint } = self.vectors.as_raw_mut();
        let trace = ffi::rows(trace);
        let reply = raw::turn(words, self.record, value, value_taint, origin, ranges, bytes, taint, trace, statuses);
        self.ended(reply, words, statuses)
    }

    /// Takes over what a run of these words has left, and says how it ended.
    fn ended(&mut self, reply: RunReply, words: &[u32], statuses: &[u8]) -> Result<Run, Refusal> {
        self.record = reply.session;
        // There are no more steps than words.
        let steps = reply.steps as usize;
        match Answer::of_reply(reply.answer) {
            Answer::Done => {
                let access = Access { code: reply.code, address: reply.address };
                let status = statuses[..steps].last().copied().unwrap_or(0);
                Ok(Run { steps, last: Step::new(access, status) })
            }
            answer => Err(Refusal::after(steps, answer, reply.address).of_word(words.get(steps))),
        }
    }

    /// The records, as [`raw::step`] takes them.
    pub fn as_raw_mut(&mut self) -> (&mut SessionRecord, &mut VectorsRecord) {
        (&mut self.record, self.vectors.as_raw_mut())
    }

    /// The session of records that a host keeps as [`raw::step`] takes them.
    pub const fn from_raw(record: SessionRecord, vectors: VectorsRecord) -> Session {
        Session { record, vectors: Vectors::from_raw(vectors) }
    }
}

/// A tainted byte is a secret: it isn't shown, so that no log gets it. Of the vector registers those are shown that aren't 0.
impl fmt::Debug for Session {
    fn fmt(&self, f: &mut fmt::Formatter<'_>) -> fmt::Result {
        let mut map = f.debug_map();
        for register in Register::all() {
            map.entry(&format_args!("{register}"), &self.shown(register));
        }
        for register in self.vectors.used() {
            map.entry(&format_args!("{register}"), &self.vectors.shown(register));
        }
        map.entry(&format_args!("pc"), &format_args!("{:#x}", self.pc()));
        map.entry(&format_args!("monitor"), &self.monitor()).finish()
    }
}

impl fmt::Debug for SessionRecord {
    fn fmt(&self, f: &mut fmt::Formatter<'_>) -> fmt::Result {
        Session::from_raw(*self, VectorsRecord::default()).fmt(f)
    }
}
