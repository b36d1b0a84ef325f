// Made from crates/socket_script/src/memory.rt by rust/translate: change it there.
//! Why a run cannot go on.

use crate::proved::socket_script::tally::Unwritten;

/// Why a run cannot go on.
#[derive(Clone, Copy)]
pub enum Halt {
    /// The output cannot be written.
    Write,
    /// Memory ran out.
    Memory,
}

impl From<Unwritten> for Halt {
    fn from(_error: Unwritten) -> Halt {
        Halt::Write
    }
}
