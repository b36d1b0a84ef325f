// Made from crates/script_program/src/fault.rt by rust/translate: change it there.
//! Why a program failed, and its exit status.

use crate::kit::alloc::Global;
use crate::kit::io;
use crate::kit::{HostRuntime, String, format};
use crate::proved::script_program::advice::wrong_with;
use crate::proved::sock_pair::script::{End, ScriptError};
use std::process::ExitCode;

/// Why a program failed: wrong arguments, or how its run of the script ended.
#[derive(Debug)]
pub enum Fault {
    /// The arguments are not these.
    Usage(&'static str),
    /// The text is no script. The second part is empty, or a line feed and what is wrong with the line.
    Script(ScriptError, String),
    /// The script cannot be read.
    Read,
    /// The file of this name cannot be opened.
    Open(String, io::Error),
    /// The output cannot be written.
    Write,
    /// Memory ran out.
    Memory,
}

impl Fault {
    /// The exit status: 1 for wrong arguments and for a text that is no script, 2 for a stream that failed, 3 for want
    /// of memory.
    pub fn status(&self) -> u8 {
        match self {
            Fault::Usage(_) => 1,
            Fault::Script(error, _) => End::Script(*error).status(),
            Fault::Read | Fault::Open(..) => End::Read.status(),
            Fault::Write => End::Write.status(),
            Fault::Memory => End::Memory.status(),
        }
    }
}

/// What the end of a script's run is for the program; `text` is the script.
pub fn fault_of(alloc: Global, end: End, text: &[u8]) -> Result<(), Fault> {
    match end {
        End::Done => Ok(()),
        End::Script(error) => Err(Fault::Script(error, second_line(alloc, &error, text))),
        End::Read => Err(Fault::Read),
        End::Write => Err(Fault::Write),
        End::Memory => Err(Fault::Memory),
    }
}

// What stands behind the text of a script's fault: nothing where there is no memory for it.
fn second_line(alloc: Global, error: &ScriptError, text: &[u8]) -> String {
    let written = match wrong_with(error, text) {
        Some(advice) => format!(in alloc; "\n{advice}"),
        None => return String::new(alloc),
    };
    match written {
        Ok(line) => line,
        Err(_) => String::new(alloc),
    }
}

/// Ends a program: a fault is printed on standard error.
pub fn exit_code(rt: &HostRuntime, ended: Result<(), Fault>) -> ExitCode {
    match ended {
        Ok(()) => ExitCode::SUCCESS,
        Err(fault) => {
            let status = fault.status();
            let _ = rt.eprintln(fault);
            ExitCode::from(status)
        }
    }
}

// What thiserror derives.
impl core::fmt::Display for Fault {
    fn fmt(&self, f: &mut core::fmt::Formatter<'_>) -> core::fmt::Result {
        match self {
            Fault::Usage(_0) => write!(f, "usage: {0}", _0),
            Fault::Script(_0, _1) => write!(f, "{0}{1}", _0, _1),
            Fault::Read => f.write_str("read failed"),
            Fault::Open(_0, _1) => write!(f, "read failed\n{0}: {1}", _0, _1),
            Fault::Write => f.write_str("write failed"),
            Fault::Memory => f.write_str("out of memory"),
        }
    }
}

impl core::error::Error for Fault {}
