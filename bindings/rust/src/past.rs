use crate::{
    classify, ffi, raw, Access, Answer, Copied, Instruction, Link, Memory, Place, Refusal, Register, Run, Session,
    Taint, VectorRegister, VectorTaint, Window,
};
use std::fmt;

/// What a run starts with, as far as its taints go: those of registers, vector registers and memory, where memory is, and PC.
/// It holds no value of a register and no byte of memory.
///
/// A host that runs with lists of its own takes one before the run, and makes a [`Past`] of it by [`ran`](Start::ran);
/// [`Past::run`] does both.
#[derive(Clone, PartialEq, Eq)]
pub struct Start {
    pub(crate) window: Window,
    pub(crate) length: u64,
    pub(crate) pc: u64,
    pub(crate) registers: [Taint; 32],
    pub(crate) vectors: [[Taint; 2]; 32],
    pub(crate) taint: Vec<u8>,
}

impl Start {
    /// Of a session and of the memory that it is about to run in. All of memory's taint bytes are copied.
    pub fn of<M: AsRef<[u8]> + AsMut<[u8]>, T: AsRef<[u8]> + AsMut<[u8]>>(
        session: &Session,
        memory: &Memory<M, T>,
    ) -> Start {
        let mut start = Start::clean(memory.window, memory.bytes().len() as u64, session.pc());
        for register in Register::all() {
            start.registers[register.number() as usize] = session.get(register).1;
        }
        for register in VectorRegister::all() {
            let taint = session.vectors().get(register).1;
            start.vectors[register.number() as usize] = [taint.low(), taint.high()];
        }
        start.taint = memory.taint().iter().map(|&byte| (byte != 0).into()).collect();
        start
    }

    /// Nothing tainted, and no taint bytes yet.
    pub(crate) const fn clean(window: Window, length: u64, pc: u64) -> Start {
        let (registers, vectors) = ([Taint::NONE; 32], [[Taint::NONE; 2]; 32]);
        Start { window, length, pc, registers, vectors, taint: Vec::new() }
    }

    /// Where memory is.
    pub const fn window(&self) -> Window {
        self.window
    }

    /// How many bytes memory has.
    pub const fn length(&self) -> u64 {
        self.length
    }

    /// The program counter.
    pub const fn pc(&self) -> u64 {
        self.pc
    }

    /// Which bytes of a register are tainted.
    pub const fn register(&self, register: Register) -> Taint {
        self.registers[register.number() as usize]
    }

    /// Which bytes of a vector register are tainted.
    pub const fn vector(&self, register: VectorRegister) -> VectorTaint {
        let [low, high] = self.vectors[register.number() as usize];
        VectorTaint::halves(low, high)
    }

    /// For each byte of memory 1 where it is tainted, and else 0.
    pub fn taint(&self) -> &[u8] {
        &self.taint
    }

    /// The past of a run that was started so and has left this trace and these statuses, of which so many steps count: those
    /// of its [`Run`], or of its [`Refusal`]. What the lists have beyond the steps, but for words, is dropped. Whether a run
    /// can have left them is tested by each [`Past::why`].
    ///
    /// # Errors
    ///
    /// [`Answer::BadTrace`] where words, trace or statuses are fewer than the steps.
    pub fn ran(self, words: &[u32], trace: &[Access], statuses: &[u8], steps: usize) -> Result<Past, Refusal> {
        if words.len() < steps || trace.len() < steps || statuses.len() < steps {
            return Err(Refusal::new(Answer::BadTrace));
        }
        let (trace, statuses) = (trace[..steps].to_vec(), statuses[..steps].to_vec());
        Ok(Past { start: self, words: words.to_vec(), trace, statuses })
    }
}

/// What is left of a run and of the taints that it started with, so that it can be asked why a byte is tainted.
///
/// It holds no value: nothing in it is a secret, and its text ([`Display`](fmt::Display), and [`FromStr`](std::str::FromStr) to
/// read it) may be sent to a help desk that hasn't got the machine.
///
/// ```
/// use milestarling::{Answer, Memory, Past, Place, Register, Session, Taint, Window};
///
/// # fn main() -> Result<(), milestarling::Refusal> {
/// let mut memory = Memory::zeroed(Window::at(0x1000), 32);
/// memory.write(0x1000, b"sesame42", true)?;
/// let mut session = Session::new();
/// session.set(Register::X0, 0x1000, Taint::NONE);
/// session.set(Register::X1, 0x1010, Taint::NONE);
/// // ldrb w2, [x0]; strb w2, [x1]; ldrb w4, [x0, x2]
/// let (past, ran) = Past::run(&mut session, &mut memory, &[0x39400002, 0x39000022, 0x38626804]);
/// assert_eq!(ran.unwrap_err().answer(), Answer::TaintedAddress);
///
/// // Why is the copy tainted, at the end?
/// let links = past.why(Place::Memory(0x1010), past.steps())?;
/// let sentences: Vec<String> = links.iter().map(|link| link.to_string()).collect();
/// assert_eq!(
///     sentences,
///     [
///         "0x1010: step 2, strb w2, [x1], from x2 byte 0",
///         "x2 byte 0: step 1, ldrb w2, [x0], from 0x1000",
///         "0x1000: tainted at the start",
///     ],
/// );
/// // It wasn't before the store.
/// assert!(past.why(Place::Memory(0x1010), 1)?.is_empty());
/// // What the refused word would have taken its address from.
/// assert_eq!(past.blamed()?, [Place::Register(Register::X2, 0)]);
/// # Ok(())
/// # }
/// ```
///
/// What a host computes between two runs isn't in the past of either: a byte that it has tainted by itself is tainted at the
/// start of the next one.
#[derive(Clone, PartialEq, Eq)]
pub struct Past {
    pub(crate) start: Start,
    pub(crate) words: Vec<u32>,
    // As many as there are steps, as the statuses are.
    pub(crate) trace: Vec<Access>,
    pub(crate) statuses: Vec<u8>,
}

/// Links that there is room for at first: a secret is seldom copied more often.
const ROOM: usize = 16;

impl Past {
    /// Does [`Session::run`], and keeps what it leaves together with the taints that it started with.
    pub fn run<M: AsRef<[u8]> + AsMut<[u8]>, T: AsRef<[u8]> + AsMut<[u8]>>(
        session: &mut Session,
        memory: &mut Memory<M, T>,
        words: &[u32],
    ) -> (Past, Result<Run, Refusal>) {
        let start = Start::of(session, memory);
        let (mut trace, mut statuses) = (vec![Access::default(); words.len()], vec![0; words.len()]);
        let ran = session.run(memory, words, &mut trace, &mut statuses);
        let steps = ran.map_or_else(|refusal| refusal.steps(), |run| run.steps);
        trace.truncate(steps);
        statuses.truncate(steps);
        (Past { start, words: words.to_vec(), trace, statuses }, ran)
    }

    /// What the run started with.
    pub const fn start(&self) -> &Start {
        &self.start
    }

    /// How many steps were done.
    pub fn steps(&self) -> usize {
        self.trace.len()
    }

    /// All words of the run: one for each step done, then the one that was refused, if one was, and those behind it.
    pub fn words(&self) -> &[u32] {
        &self.words
    }

    /// What each step did.
    pub fn trace(&self) -> &[Access] {
        &self.trace
    }

    /// The status of each step: 1 for a store-exclusive that failed, and else 0.
    pub fn statuses(&self) -> &[u8] {
        &self.statuses
    }

    /// The address of a step's word, from 0, and by the number of steps that of the word that was refused.
    pub const fn pc(&self, step: usize) -> u64 {
        self.start.pc.wrapping_add((step as u64).wrapping_mul(4))
    }

    /// The word that was refused: the one behind the last step.
    pub fn refused(&self) -> Option<u32> {
        self.words.get(self.steps()).copied()
    }

    /// Why a byte is tainted just before a step, counted from 0; the number of steps stands for the end.
    ///
    /// The first link is of the byte itself, and each other of the byte that the one before it was copied from, at an earlier
    /// step, back to one that was tainted at the start. There is none where the byte isn't tainted.
    ///
    /// # Errors
    ///
    /// [`Answer::BadWindow`] where the window or the number of taint bytes is wrong, [`Answer::OutOfWindow`] for a byte outside
    /// the window, [`Answer::NoSuchInstruction`] for a byte that the register hasn't got, [`Answer::BadTrace`] where no run
    /// leaves such a trace or such statuses, and [`Answer::AfterEnd`] for a step after the last one: the first of these.
    pub fn why(&self, place: Place, step: usize) -> Result<Vec<Link>, Refusal> {
        let most = step.min(self.steps()) + 1;
        let mut room = ROOM.min(most);
        loop {
            let mut links = vec![0; 3 * room];
            let reply = self.ask(place, step, &mut links);
            match Answer::of_reply(reply.answer) {
                // There are no more than there was room for.
                Answer::Done => return Ok(self.told(&links[..3 * reply.links as usize])),
                Answer::NoRoom if room < most => room = room.saturating_mul(ROOM).min(most),
                Answer::OutOfWindow => return Err(Refusal::after(0, Answer::OutOfWindow, place.asked().1)),
                answer => return Err(Refusal::new(answer)),
            }
        }
    }

    /// The tainted bytes that the refused word would have formed its address of: those that answer 5 is for. There are none
    /// where no word was refused, or for another answer.
    ///
    /// # Errors
    ///
    /// Those of [`why`](Past::why).
    pub fn blamed(&self) -> Result<Vec<Place>, Refusal> {
        // A run with a wrong PC isn't begun.
        let tried = |&word: &u32| self.start.pc % 4 == 0 && classify(word) == Answer::Done;
        let refused = self.refused().filter(tried);
        let places = refused.and_then(|word| Instruction::new(word).ok()).map(Instruction::address_bytes);
        let mut found = Vec::new();
        for place in places.unwrap_or_default() {
            if !self.why(place, self.steps())?.is_empty() {
                found.push(place);
            }
        }
        Ok(found)
    }

    fn ask(&self, place: Place, step: usize, links: &mut [u64]) -> raw::WhyReply {
        let Start { window, length, registers, vectors, taint, .. } = &self.start;
        let (kind, number, byte) = place.asked();
        raw::why(
            &self.words,
            ffi::rows_of(&self.trace),
            &self.statuses,
            self.steps() as u64,
            registers,
            vectors,
            taint,
            window.origin,
            window.readonly,
            *length,
            step as u64,
            kind,
            number,
            byte,
            links,
        )
    }

    /// The links of the numbers that the library wrote.
    fn told(&self, numbers: &[u64]) -> Vec<Link> {
        let place_of = |row: &[u64]| Place::of_link(row[0], row[1]).expect("a link is of a place");
        let rows: Vec<&[u64]> = numbers.chunks_exact(3).collect();
        let link = |(at, row): (usize, &&[u64])| {
            let from = rows.get(at + 1).map(|next| place_of(next));
            // 0 stands for the start, and no link stands behind that one.
            let step = usize::try_from(row[2]).ok().and_then(|step| step.checked_sub(1));
            Link::new(place_of(row), step.zip(from).map(|(step, from)| Copied::new(step, self.words[step], from)))
        };
        rows.iter().enumerate().map(link).collect()
    }
}

impl fmt::Debug for Start {
    fn fmt(&self, f: &mut fmt::Formatter<'_>) -> fmt::Result {
        f.debug_struct("Start").field("window", &self.window).field("length", &self.length).finish_non_exhaustive()
    }
}

impl fmt::Debug for Past {
    fn fmt(&self, f: &mut fmt::Formatter<'_>) -> fmt::Result {
        f.debug_struct("Past").field("start", &self.start).field("steps", &self.steps()).finish_non_exhaustive()
    }
}
