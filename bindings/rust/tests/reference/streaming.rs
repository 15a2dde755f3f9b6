//! The lister of a stream, CR 5 of document 02.

use super::listing::listing;
use super::{CLOSED, DONE, NO_ROOM};

/// A lister as a host may make one: the bytes that it says to hold, how many it says they are, and whether it is closed.
#[derive(Clone, Debug, PartialEq, Eq)]
pub struct Lister {
    pub held: Vec<u8>,
    pub count: usize,
    pub closed: bool,
}

impl Lister {
    pub fn new() -> Lister {
        Lister { held: Vec::new(), count: 0, closed: false }
    }

    fn refuses(&self) -> bool {
        self.closed || self.count > 3
    }

    /// This call's lines, and the lister after it.
    fn pushed(&self, fragment: &[u8]) -> (String, Lister) {
        let mut bytes = self.held.clone();
        bytes.extend(fragment);
        let held = bytes.split_off(bytes.len() / 4 * 4);
        (listing(&bytes), Lister { count: held.len(), held, closed: false })
    }

    /// Takes a fragment, or closes: the answer and the length.
    pub fn call(&mut self, fragment: Option<&[u8]>, output: &mut [u8]) -> (u8, usize) {
        if self.refuses() {
            return (CLOSED, 0);
        }
        let (lines, next) = match fragment {
            Some(fragment) => self.pushed(fragment),
            None => (listing(&self.held), Lister { closed: true, ..self.clone() }),
        };
        match output.get_mut(..lines.len()) {
            None => (NO_ROOM, 0),
            Some(room) => {
                room.copy_from_slice(lines.as_bytes());
                *self = next;
                (DONE, lines.len())
            }
        }
    }
}
