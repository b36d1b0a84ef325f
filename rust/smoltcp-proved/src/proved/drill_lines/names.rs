// Made from crates/drill_lines/src/names.rt by rust/translate: change it there.
//! The names of an example's sockets.

use crate::kit::Vec;
use crate::kit::alloc::{AllocFailed, Global};

/// An example has at most so many sockets.
pub const MOST: usize = 16;

/// The names of the sockets that an example has made so far, in their order.
pub struct Names<'t> {
    alloc: Global,
    names: Vec<&'t [u8]>,
}

impl<'t> Names<'t> {
    /// No names.
    pub fn new(alloc: Global) -> Names<'t> {
        Names { alloc, names: Vec::new(alloc) }
    }

    /// The place of a name, counted from 0; none for a word that names no socket.
    pub fn place_of(&self, word: &[u8]) -> Option<usize> {
        place_among(self.names.as_slice(), word)
    }

    /// Whether a socket can have this name: none has it, and there is room for one more.
    pub fn is_free(&self, word: &[u8]) -> bool {
        self.names.len() < MOST && self.place_of(word).is_none()
    }

    /// Adds a name.
    pub fn add(&mut self, word: &'t [u8]) -> Result<(), AllocFailed<&'t [u8]>> {
        self.names.push(word)
    }

    /// Forgets all names.
    pub fn clear(&mut self) {
        self.names = Vec::new(self.alloc);
    }
}

fn place_among(names: &[&[u8]], word: &[u8]) -> Option<usize> {
    names.iter().position(|name| -> bool { *name == word })
}
