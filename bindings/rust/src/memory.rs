use crate::{Answer, Refusal, Session, Step};
use std::fmt;
use std::ops::Range;

/// Where memory is: the address of its first byte, and how many of its first bytes are read-only. Its length is the
/// buffer's own.
///
/// ```
/// use milestarling::Window;
///
/// let window = Window::at(0x1000).readonly(64);
/// assert_eq!((window.origin, window.readonly), (0x1000, 64));
/// ```
#[derive(Clone, Copy, Debug, Default, PartialEq, Eq, Hash)]
pub struct Window {
    /// The address of memory's first byte.
    pub origin: u64,
    /// How many of the first bytes can't be stored to.
    pub readonly: u64,
}

impl Window {
    /// A window that begins at an address, all of it writable.
    pub const fn at(origin: u64) -> Window {
        Window { origin, readonly: 0 }
    }

    /// This window with another number of read-only bytes.
    pub const fn readonly(self, bytes: u64) -> Window {
        Window { readonly: bytes, ..self }
    }
}

/// What a step that was done did: an entry of the trace.
#[derive(Clone, Copy, Debug, Default, PartialEq, Eq, Hash)]
#[repr(C)]
pub struct Access {
    /// The bytes touched, both registers of a pair together, and 64 more for a store; 0 for a prefetch.
    pub code: u64,
    /// The address of the first byte; 0 for a prefetch.
    pub address: u64,
}

impl Access {
    /// A store of the host's own, for a session's monitor to observe.
    ///
    /// ```
    /// use milestarling::{Access, Monitor, Session, Step};
    ///
    /// let mut session = Session::new();
    /// session.set_monitor(Some(Monitor { address: 4096, bytes: 4 }));
    /// session.observe(Step::new(Access::store(4000, b"from 4000 on"), 0));
    /// assert!(session.monitor().is_some());
    /// session.observe(Step::new(Access::store(4000, &[0; 100]), 0));
    /// assert!(session.monitor().is_none());
    /// ```
    pub const fn store(address: u64, bytes: &[u8]) -> Access {
        Access { code: 64 + bytes.len() as u64, address }
    }

    /// The bytes touched.
    pub const fn bytes(self) -> u64 {
        if self.is_store() {
            self.code - 64
        } else {
            self.code
        }
    }

    /// Whether it stored them.
    pub const fn is_store(self) -> bool {
        self.code >= 64
    }

    /// Whether it touched nothing.
    pub const fn is_prefetch(self) -> bool {
        self.code == 0
    }
}

impl fmt::Display for Access {
    fn fmt(&self, f: &mut fmt::Formatter<'_>) -> fmt::Result {
        if self.is_prefetch() {
            return f.write_str("prefetch");
        }
        let kind = if self.is_store() { "store" } else { "load" };
        write!(f, "{kind} of {} at {:#x}", self.bytes(), self.address)
    }
}

/// Bytes, and a taint byte for each, where any but 0 means tainted: by name, so that neither is taken for the other.
///
/// `M` and `T` are whatever holds them: a `Vec<u8>` or an array that is owned, or a `&mut [u8]` that is lent.
#[derive(Clone, Copy)]
pub struct TaintedBytes<M, T> {
    /// The bytes.
    pub bytes: M,
    /// Their taint bytes.
    pub taint: T,
}

/// One region of memory with its taints, in which any [`Session`] is stepped and run.
///
/// It owns its bytes and their taint bytes, or they are lent to it. A store leaves 0 or 1 in a taint byte.
///
/// ```
/// use milestarling::{Memory, Register, Session, Taint, TaintedBytes, Window};
///
/// # fn main() -> Result<(), milestarling::Refusal> {
/// let (mut bytes, mut taint) = ([0; 16], [0; 16]);
/// let lent = TaintedBytes { bytes: &mut bytes[..], taint: &mut taint[..] };
/// let mut memory = Memory::new(Window::at(4096).readonly(8), lent);
/// memory.write(4104, b"key", true)?;
///
/// let mut session = Session::new();
/// session.set(Register::X1, 4096, Taint::NONE);
/// session.step(&mut memory, 0xf9400420)?; // ldr x0, [x1, #8]
/// assert_eq!(session.get(Register::X0).1, Taint::bytes(0..3));
/// # Ok(())
/// # }
/// ```
#[derive(Clone)]
pub struct Memory<M, T> {
    /// Where it is.
    pub window: Window,
    bytes: M,
    taint: T,
}

impl Memory<Vec<u8>, Vec<u8>> {
    /// So many bytes, all 0 and none tainted.
    pub fn zeroed(window: Window, length: usize) -> Memory<Vec<u8>, Vec<u8>> {
        Memory::new(window, TaintedBytes { bytes: vec![0; length], taint: vec![0; length] })
    }
}

impl<M: AsRef<[u8]> + AsMut<[u8]>, T: AsRef<[u8]> + AsMut<[u8]>> Memory<M, T> {
    /// Memory of these bytes. Nothing is tested here: a window that doesn't fit is answered by each step and run with
    /// [`Answer::BadWindow`].
    pub fn new(window: Window, parts: TaintedBytes<M, T>) -> Memory<M, T> {
        Memory { window, bytes: parts.bytes, taint: parts.taint }
    }

    /// The bytes.
    pub fn bytes(&self) -> &[u8] {
        self.bytes.as_ref()
    }

    /// A taint byte for each byte.
    pub fn taint(&self) -> &[u8] {
        self.taint.as_ref()
    }

    /// The bytes and their taint bytes, to be changed by the host, both at once.
    pub fn parts_mut(&mut self) -> TaintedBytes<&mut [u8], &mut [u8]> {
        TaintedBytes { bytes: self.bytes.as_mut(), taint: self.taint.as_mut() }
    }

    /// Gives back what holds the bytes and the taint bytes.
    pub fn into_parts(self) -> TaintedBytes<M, T> {
        TaintedBytes { bytes: self.bytes, taint: self.taint }
    }

    /// Whether there is a byte at an address.
    pub fn holds(&self, address: u64) -> bool {
        self.place(address).is_some()
    }

    fn place(&self, address: u64) -> Option<usize> {
        let place = usize::try_from(address.checked_sub(self.window.origin)?).ok()?;
        (place < self.bytes().len()).then_some(place)
    }

    fn places(&self, address: u64, length: usize) -> Result<Range<usize>, Refusal> {
        if self.taint().len() != self.bytes().len() {
            return Err(Refusal::new(Answer::BadWindow));
        }
        if length == 0 {
            return Ok(0..0);
        }
        let places = self.place(address).and_then(|start| Some(start..start.checked_add(length)?));
        places.filter(|places| places.end <= self.bytes().len()).ok_or(Refusal::after(0, Answer::OutOfWindow, address))
    }

    /// So many bytes at an address, with a taint byte for each, where any but 0 means tainted: such a byte is neither branched on
    /// nor shown.
    ///
    /// ```
    /// use milestarling::{Memory, Window};
    ///
    /// # fn main() -> Result<(), milestarling::Refusal> {
    /// let mut memory = Memory::zeroed(Window::at(4096), 16);
    /// memory.write(4104, b"key", true)?;
    /// let read = memory.read(4103, 3)?;
    /// assert_eq!((read.bytes, read.taint), (&b"\0ke"[..], &[0, 1, 1][..]));
    /// assert!(memory.read(4110, 3).is_err());
    /// # Ok(())
    /// # }
    /// ```
    ///
    /// # Errors
    ///
    /// As [`write`](Memory::write) has them.
    pub fn read(&self, address: u64, length: usize) -> Result<TaintedBytes<&[u8], &[u8]>, Refusal> {
        let places = self.places(address, length)?;
        Ok(TaintedBytes { bytes: &self.bytes()[places.clone()], taint: &self.taint()[places] })
    }

    /// Puts bytes at an address, with their taint. It is the host's call: the read-only beginning may be filled too, and
    /// the monitors of sessions in this memory have to observe [`Access::store`] of the same, or to be opened.
    ///
    /// # Errors
    ///
    /// [`Answer::OutOfWindow`] where not all of them have a place, and [`Answer::BadWindow`] where the taint buffer has
    /// another length than the bytes. Nothing is changed then.
    pub fn write(&mut self, address: u64, bytes: &[u8], tainted: bool) -> Result<(), Refusal> {
        let places = self.places(address, bytes.len())?;
        self.bytes.as_mut()[places.clone()].copy_from_slice(bytes);
        self.taint.as_mut()[places].fill(tainted.into());
        Ok(())
    }
}

/// Memory may hold secrets, so only its length is shown.
impl<M: AsRef<[u8]>, T> fmt::Debug for Memory<M, T> {
    fn fmt(&self, f: &mut fmt::Formatter<'_>) -> fmt::Result {
        f.debug_struct("Memory")
            .field("window", &self.window)
            .field("length", &self.bytes.as_ref().len())
            .finish_non_exhaustive()
    }
}

/// Does one word on whichever of several regions has its address.
///
/// It is first tried with no memory at all, which finds out the address and changes nothing, and then in the region that
/// holds it. An access that runs on from one region into the next is outside both, and is refused with 7.
///
/// ```
/// use milestarling::{step_in, Answer, Memory, Register, Session, Taint, Window};
///
/// let mut regions = [
///     Memory::zeroed(Window::at(0x1000).readonly(16), 16), // constants
///     Memory::zeroed(Window::at(0x8000), 64),              // a stack
/// ];
/// let mut session = Session::new();
/// session.set(Register::X1, 0x1000, Taint::NONE);
/// session.set(Register::SP, 0x8040, Taint::NONE);
/// assert!(step_in(&mut regions, &mut session, 0xf9400020).is_ok()); // ldr x0, [x1]
/// assert!(step_in(&mut regions, &mut session, 0xa9bf7bfd).is_ok()); // stp x29, x30, [sp, #-16]!
/// let refusal = step_in(&mut regions, &mut session, 0xf9000020).unwrap_err(); // str x0, [x1]
/// assert_eq!(refusal.answer(), Answer::ReadOnly);
/// ```
///
/// # Errors
///
/// Answers 1 to 8. Nothing is changed then.
pub fn step_in<M: AsRef<[u8]> + AsMut<[u8]>, T: AsRef<[u8]> + AsMut<[u8]>>(
    regions: &mut [Memory<M, T>],
    session: &mut Session,
    word: u32,
) -> Result<Step, Refusal> {
    let mut nowhere = Memory::new(Window::default(), TaintedBytes { bytes: [], taint: [] });
    let tried = session.step(&mut nowhere, word);
    let Err(refusal) = tried else { return tried };
    match regions.iter_mut().find(|region| refusal.outside().is_some_and(|address| region.holds(address))) {
        Some(region) => session.step(region, word),
        None => tried,
    }
}
