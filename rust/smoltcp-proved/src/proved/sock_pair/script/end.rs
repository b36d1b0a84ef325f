// Made from crates/sock_pair/src/script/end.rt by rust/translate: change it there.
//! How a replay ended.

use crate::proved::sock_pair::script::error::ScriptError;

/// How a replay ended.
#[derive(Debug, Clone, Copy, PartialEq, Eq)]
pub enum End {
    /// All events were done and all lines written.
    Done,
    /// The text is no script; nothing was run.
    Script(ScriptError),
    /// The reader failed; nothing was run.
    Read,
    /// The writer failed.
    Write,
    /// Memory ran out. The lines of the steps that were done are written, and no closing lines.
    Memory,
}

impl End {
    /// The exit status of a program that ends so: 0 where all was done, 1 for a text that is no
    /// script, 2 for a stream that failed, 3 for want of memory.
    pub fn status(&self) -> u8 {
        match self {
            End::Done => 0,
            End::Script(_) => 1,
            End::Read | End::Write => 2,
            End::Memory => 3,
        }
    }
}
