use crate::{Access, Memory, Refusal, Run, Session, Step, TaintedBytes};
use std::fmt;

/// So many bytes from an address on. It may be empty.
#[repr(C)]
#[derive(Clone, Copy, Debug, Default, PartialEq, Eq, Hash)]
pub struct Range {
    /// The address of the first byte.
    pub address: u64,
    /// How many bytes.
    pub length: u64,
}

impl Range {
    /// So many bytes from an address on.
    pub const fn new(address: u64, length: u64) -> Range {
        Range { address, length }
    }
}

/// The ranges of a turn, as [`raw::turn`](crate::raw::turn) takes them: by name, so that none is taken for another.
#[repr(C)]
#[derive(Clone, Copy, Debug, Default, PartialEq, Eq, Hash)]
pub struct Ranges {
    /// What both plugins load from and neither stores to.
    pub shared: Range,
    /// What the plugin whose turn it is loads from and stores to.
    pub own: Range,
    /// What the other one has for its own.
    pub other: Range,
}

/// One of the two plugins of a [`Shared`].
#[derive(Clone, Copy, Debug, PartialEq, Eq, Hash)]
pub enum Plugin {
    /// The one that was named first.
    First,
    /// The other one.
    Second,
}

impl Plugin {
    /// The one that this isn't.
    #[must_use]
    pub const fn other(self) -> Plugin {
        match self {
            Plugin::First => Plugin::Second,
            Plugin::Second => Plugin::First,
        }
    }
}

/// Two plugins that take turns in one memory: a range that both load from and neither stores to, and for each a session and a
/// range of its own. Neither sees anything of what the other is and does.
///
/// A load lies wholly in the shared range or wholly in the plugin's own, and a store wholly in its own. What the host puts into
/// the shared range with [`write`](Shared::write), both read.
///
/// ```
/// use milestarling::{Answer, Memory, Plugin, Range, Register, Session, Shared, Taint, Window};
///
/// # fn main() -> Result<(), milestarling::Refusal> {
/// let mut session = Session::new();
/// session.set(Register::X1, 4096, Taint::NONE);
/// let memory = Memory::zeroed(Window::at(4096), 48);
/// let (first, second) = ((session.clone(), Range::new(4112, 16)), (session, Range::new(4128, 16)));
/// let mut shared = Shared::new(memory, Range::new(4096, 16), first, second);
/// shared.write(4096, b"hello", false)?;
///
/// shared.step(Plugin::First, 0x39400020)?; // ldrb w0, [x1]
/// shared.step(Plugin::First, 0xf9000820)?; // str x0, [x1, #16]
/// assert_eq!(shared.memory().bytes()[16], b'h');
///
/// let refused = |ended: Result<_, milestarling::Refusal>| ended.unwrap_err().answer();
/// assert_eq!(refused(shared.step(Plugin::Second, 0xf9400820)), Answer::NotAllowed); // ldr x0, [x1, #16]
/// assert_eq!(refused(shared.step(Plugin::Second, 0xf9000020)), Answer::ReadOnly); // str x0, [x1]
/// # Ok(())
/// # }
/// ```
///
/// # What can't be mixed up
///
/// It owns the memory and both sessions. So no turn gets the other plugin's session or ranges, the ranges stay what they are from
/// turn to turn, and no session runs in this memory but by a turn. Neither of these compiles:
///
/// ```compile_fail,E0308
/// # use milestarling::*;
/// fn past_the_ranges(shared: &Shared<Vec<u8>, Vec<u8>>, session: &mut Session) {
///     let _ = session.step(shared.memory(), 0xf9400820);
/// }
/// ```
///
/// ```compile_fail,E0382
/// # use milestarling::*;
/// let mut memory = Memory::zeroed(Window::at(4096), 48);
/// let (first, second) = ((Session::new(), Range::new(4112, 16)), (Session::new(), Range::new(4128, 16)));
/// let shared = Shared::new(memory, Range::new(4096, 16), first, second);
/// let _ = Session::new().step(&mut memory, 0xf9400820);
/// ```
///
/// # The monitors
///
/// Each plugin has its own, and no turn opens the other's: a load-exclusive arms it for bytes that its plugin may load, and the
/// other plugin stores to none of these. A write of the host's own is another matter, and both monitors observe it:
/// [`write`](Shared::write) and [`parts_mut`](Shared::parts_mut) see to that. A lock between the two there isn't: to take one in
/// the shared range is a store, and is refused with [`Answer::ReadOnly`](crate::Answer::ReadOnly).
///
/// # The host's own duty
///
/// Between two turns the host does its duty for each plugin as for a plugin alone, by [`session_mut`](Shared::session_mut). What
/// it computes of one plugin's values and hands to the other, it gives out itself. What it stores for a plugin by itself, such as
/// the zeros of `dc zva`, it holds against that plugin's [`ranges`](Shared::ranges) first. Why a byte is tainted
/// ([`Past`](crate::Past)) is told of a plugin alone, and not promised of turns.
#[derive(Clone)]
pub struct Shared<M, T> {
    memory: Memory<M, T>,
    shared: Range,
    first: (Session, Range),
    second: (Session, Range),
}

impl<M: AsRef<[u8]> + AsMut<[u8]>, T: AsRef<[u8]> + AsMut<[u8]>> Shared<M, T> {
    /// Two plugins, each as its session and its own range, in a memory of which they share a range. The shared range takes the
    /// place of read-only bytes: those of the memory's window don't count, and are 0 from here on.
    ///
    /// Nothing is tested here: where two ranges have a byte in common, or one isn't inside the window, be it an empty one, each
    /// turn of both is answered with [`Answer::BadWindow`](crate::Answer::BadWindow). An empty range may stand at the end of the
    /// window or inside another.
    pub fn new(
        mut memory: Memory<M, T>,
        shared: Range,
        first: (Session, Range),
        second: (Session, Range),
    ) -> Shared<M, T> {
        memory.window.readonly = 0;
        Shared { memory, shared, first, second }
    }

    /// One turn of a plugin: a run of these words, as [`Session::run`] does it, from what the plugin's own last turn left, be
    /// that a refused one.
    ///
    /// # Errors
    ///
    /// Answer 1 (also for the ranges) or 10 before anything is done, else 2 to 8 of the step that was refused, of which 8 is for
    /// a store that touches the shared range, or 12, for any other access that isn't allowed. The steps before it stay done, and
    /// it ends this turn only.
    pub fn turn(
        &mut self,
        plugin: Plugin,
        words: &[u32],
        trace: &mut [Access],
        statuses: &mut [u8],
    ) -> Result<Run, Refusal> {
        let ranges = self.ranges(plugin);
        let (session, _) = match plugin {
            Plugin::First => &mut self.first,
            Plugin::Second => &mut self.second,
        };
        session.turn(&mut self.memory, ranges, words, trace, statuses)
    }

    /// A turn of one word, for a host that computes what stands between the loads and stores.
    ///
    /// # Errors
    ///
    /// As [`turn`](Shared::turn) has them, but for 10. Nothing is changed then.
    pub fn step(&mut self, plugin: Plugin, word: u32) -> Result<Step, Refusal> {
        let run = self.turn(plugin, &[word], &mut [Access::default()], &mut [0])?;
        Ok(run.last)
    }

    /// A plugin's session.
    pub const fn session(&self, plugin: Plugin) -> &Session {
        match plugin {
            Plugin::First => &self.first.0,
            Plugin::Second => &self.second.0,
        }
    }

    /// A plugin's session, to be set by the host.
    pub fn session_mut(&mut self, plugin: Plugin) -> &mut Session {
        match plugin {
            Plugin::First => &mut self.first.0,
            Plugin::Second => &mut self.second.0,
        }
    }

    /// The ranges of a plugin's turns.
    pub const fn ranges(&self, plugin: Plugin) -> Ranges {
        let (own, other) = match plugin {
            Plugin::First => (self.first.1, self.second.1),
            Plugin::Second => (self.second.1, self.first.1),
        };
        Ranges { shared: self.shared, own, other }
    }

    /// The memory, to be read by the host: all of it.
    pub const fn memory(&self) -> &Memory<M, T> {
        &self.memory
    }

    /// Puts bytes at an address, with their taint, as [`Memory::write`] does, and both monitors observe it. It is the host's call,
    /// and may go to any byte of memory.
    ///
    /// ```
    /// use milestarling::{Memory, Monitor, Plugin, Range, Session, Shared, Window};
    ///
    /// # fn main() -> Result<(), milestarling::Refusal> {
    /// let mut first = Session::new();
    /// first.set_monitor(Some(Monitor { address: 4100, bytes: 4 }));
    /// let plugins = ((first, Range::new(4100, 4)), (Session::new(), Range::new(4104, 4)));
    /// let memory = Memory::zeroed(Window::at(4096), 12);
    /// let mut shared = Shared::new(memory, Range::new(4096, 4), plugins.0, plugins.1);
    /// shared.write(4096, b"1234", false)?;
    /// assert!(shared.session(Plugin::First).monitor().is_some());
    /// shared.write(4096, b"12345", false)?;
    /// assert!(shared.session(Plugin::First).monitor().is_none());
    /// # Ok(())
    /// # }
    /// ```
    ///
    /// # Errors
    ///
    /// As [`Memory::write`] has them. Nothing is changed then, and no monitor.
    pub fn write(&mut self, address: u64, bytes: &[u8], tainted: bool) -> Result<(), Refusal> {
        self.memory.write(address, bytes, tainted)?;
        let stored = Step::new(Access::store(address, bytes), 0);
        self.first.0.observe(stored);
        self.second.0.observe(stored);
        Ok(())
    }

    /// The bytes and their taint bytes, to be changed by the host in any way. What it changes isn't seen here, so both monitors are
    /// opened.
    pub fn parts_mut(&mut self) -> TaintedBytes<&mut [u8], &mut [u8]> {
        self.first.0.open();
        self.second.0.open();
        self.memory.parts_mut()
    }

    /// Gives back the memory and the sessions, the first plugin's first.
    pub fn into_parts(self) -> (Memory<M, T>, Session, Session) {
        (self.memory, self.first.0, self.second.0)
    }
}

/// What its parts show: no tainted byte, and of memory only the length.
impl<M: AsRef<[u8]>, T> fmt::Debug for Shared<M, T> {
    fn fmt(&self, f: &mut fmt::Formatter<'_>) -> fmt::Result {
        f.debug_struct("Shared")
            .field("memory", &self.memory)
            .field("shared", &self.shared)
            .field("first", &self.first)
            .field("second", &self.second)
            .finish()
    }
}
