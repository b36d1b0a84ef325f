// Made from crates/sock_pair/src/script/error.rt by rust/translate: change it there.
//! Why a text is no script.

use crate::kit::alloc::{AllocError, AllocFailed};
use core::error::Error;
use core::fmt;

/// Why a text was not read as a script, with the number of the line, counted from 1.
#[derive(Debug, Clone, Copy, PartialEq, Eq)]
pub enum ScriptError {
    /// The first line that is not skipped does not begin with `pair`, or there is none.
    NoPairLine { line: usize },
    /// The line's first word names no event.
    UnknownEvent { line: usize },
    /// The line has more or fewer words than its event wants.
    WrongNumberOfWords { line: usize },
    /// A word of the line is not of its form, or beyond its limit.
    BadWord { line: usize },
    /// Memory ran out.
    Memory,
}

impl fmt::Display for ScriptError {
    fn fmt(&self, f: &mut fmt::Formatter<'_>) -> fmt::Result {
        match self {
            ScriptError::NoPairLine { line } => at_line(f, *line, "no pair line"),
            ScriptError::UnknownEvent { line } => at_line(f, *line, "unknown event"),
            ScriptError::WrongNumberOfWords { line } => at_line(f, *line, "wrong number of words"),
            ScriptError::BadWord { line } => at_line(f, *line, "bad word"),
            ScriptError::Memory => f.write_str("out of memory"),
        }
    }
}

fn at_line(f: &mut fmt::Formatter<'_>, line: usize, what: &str) -> fmt::Result {
    write!(f, "line {line}: ")?;
    f.write_str(what)
}

impl Error for ScriptError {}

impl From<AllocError> for ScriptError {
    fn from(_error: AllocError) -> ScriptError {
        ScriptError::Memory
    }
}

impl<T> From<AllocFailed<T>> for ScriptError {
    fn from(_error: AllocFailed<T>) -> ScriptError {
        ScriptError::Memory
    }
}
