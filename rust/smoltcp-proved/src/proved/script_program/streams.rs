// Made from crates/script_program/src/streams.rt by rust/translate: change it there.
//! A reader and a writer as streams of a replay.

use crate::kit::io::{Read, Write};
use crate::proved::sock_pair::script::{Sink, Source, StreamFault};

/// A reader, and whether it has failed.
pub struct Input<R> {
    reader: R,
    failed: bool,
}

impl<R> Input<R> {
    /// A reader that has not failed.
    pub fn new(reader: R) -> Input<R> {
        Input { reader, failed: false }
    }
}

impl<R: Read> Source for Input<R> {
    fn read(&mut self, buf: &mut [u8]) -> Result<usize, StreamFault> {
        match self.reader.read(buf) {
            Ok(count) => Ok(count),
            Err(_) => {
                self.failed = true;
                Err(StreamFault)
            }
        }
    }

    fn failed(&self) -> bool {
        self.failed
    }
}

/// A writer, and whether it has failed.
pub struct Output<W> {
    writer: W,
    failed: bool,
}

impl<W> Output<W> {
    /// A writer that has not failed.
    pub fn new(writer: W) -> Output<W> {
        Output { writer, failed: false }
    }
}

impl<W: Write> Output<W> {
    /// Writes out what the writer holds back.
    pub fn flush(&mut self) -> Result<(), StreamFault> {
        match self.writer.flush() {
            Ok(()) => Ok(()),
            Err(_) => {
                self.failed = true;
                Err(StreamFault)
            }
        }
    }
}

impl<W: Write> Sink for Output<W> {
    fn write_all(&mut self, bytes: &[u8]) -> Result<(), StreamFault> {
        match self.writer.write_all(bytes) {
            Ok(()) => Ok(()),
            Err(_) => {
                self.failed = true;
                Err(StreamFault)
            }
        }
    }

    fn failed(&self) -> bool {
        self.failed
    }
}
