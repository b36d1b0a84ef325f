// Made from crates/pair_core/src/outcome.rt by rust/translate: change it there.
//! What an event comes to.

use crate::kit::Vec;
use crate::proved::sock_tcp::{RecvError, SendError};
use core::error::Error;
use core::fmt;

/// What an event came to. The last five leave both sides as they were; of these `NotAccepted` may store a segment.
#[derive(Debug, PartialEq, Eq)]
pub enum Outcome {
    /// `listen` or `connect` was called.
    Opened,
    /// The side was closed or aborted, or the setting was set.
    Done,
    /// So many of the bytes were accepted.
    Accepted(usize),
    /// The socket refused to take bytes.
    SendRefused(SendError),
    /// These bytes were handed out.
    Read(Vec<u8>),
    /// The socket refused to hand out bytes.
    RecvRefused(RecvError),
    /// The dispatch emitted nothing.
    Quiet,
    /// The dispatch emitted a segment, which has this index.
    Emitted(usize),
    /// The dispatch offered a segment, and its emit failed.
    EmitFailed,
    /// The segment was processed; the index is that of the segment that answers it.
    Delivered(Option<usize>),
    /// The side was opened before.
    AlreadyOpened,
    /// No segment has this index.
    NoSegment,
    /// The bytes accepted so far and those offered are more than the limit.
    StreamLimit,
    /// Since the segment went out, one of its emitter's counts grew by 2^29 or more.
    TooOld,
    /// The socket does not accept the segment; the index is that of the segment that answers it.
    /// There is none where the refused segment is an RST.
    NotAccepted(Option<usize>),
}

/// Why a step was not done.
#[derive(Debug, Clone, Copy, PartialEq, Eq)]
pub enum PairError {
    /// Memory ran out; the step changed nothing.
    Memory,
}

impl fmt::Display for PairError {
    fn fmt(&self, f: &mut fmt::Formatter<'_>) -> fmt::Result {
        match self {
            PairError::Memory => write!(f, "out of memory"),
        }
    }
}

impl Error for PairError {}
