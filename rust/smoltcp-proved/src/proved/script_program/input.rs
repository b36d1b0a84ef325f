// Made from crates/script_program/src/input.rt by rust/translate: change it there.
//! The text of a script, and what is printed in its place.

use crate::kit::alloc::Global;
use crate::kit::fs::File;
use crate::kit::io;
use crate::kit::io::Read;
use crate::kit::{HostRuntime, String, Vec};
use crate::proved::script_program::fault::Fault;

/// All bytes of the file of this name, or of standard input where there is none.
pub fn read_script(rt: &HostRuntime, file: Option<String>) -> Result<Vec<u8>, Fault> {
    match file {
        None => read_all(rt.alloc(), &mut rt.reader()),
        Some(name) => read_file(rt, name),
    }
}

fn read_file(rt: &HostRuntime, name: String) -> Result<Vec<u8>, Fault> {
    match File::open(rt, name.as_str()) {
        Ok(mut file) => read_all(rt.alloc(), &mut file),
        Err(error) => Err(fault_of_open(name, error)),
    }
}

// Why the file of this name could not be had.
fn fault_of_open(name: String, error: io::Error) -> Fault {
    match error.kind() {
        io::ErrorKind::OutOfMemory => Fault::Memory,
        _ => Fault::Open(name, error),
    }
}

/// All bytes up to the reader's end. `Read` where it failed, `Memory` where there was none.
pub fn read_all<R: Read>(alloc: Global, reader: &mut R) -> Result<Vec<u8>, Fault> {
    let mut text = Vec::new(alloc);
    match reader.read_to_end(&mut text) {
        Ok(_) => Ok(text),
        Err(error) => match error.kind() {
            io::ErrorKind::OutOfMemory => Err(Fault::Memory),
            _ => Err(Fault::Read),
        },
    }
}

/// Prints a text, as that of `--help`.
pub fn print(rt: &HostRuntime, text: &str) -> Result<(), Fault> {
    match rt.print(text) {
        Ok(()) => Ok(()),
        Err(_) => Err(Fault::Write),
    }
}
