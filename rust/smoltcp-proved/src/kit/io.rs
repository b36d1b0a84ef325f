//! Streams of bytes.
use crate::kit::alloc::{AllocError, Global};
use crate::kit::{HostRuntime, Vec};

pub use std::io::{Error, ErrorKind, Result, Write};

/// Standard output.
pub fn writer(_: &HostRuntime) -> std::io::Stdout {
    std::io::stdout()
}

/// Makes writers that hold bytes back until they are many.
#[derive(Debug)]
pub struct BufWriter;

impl BufWriter {
    /// A writer that holds back what goes to this one.
    #[allow(clippy::new_ret_no_self)] // the standard library's writer asks for memory at another place
    pub fn new<W: Write>(_: Global, writer: W) -> core::result::Result<std::io::BufWriter<W>, AllocError> {
        Ok(std::io::BufWriter::new(writer))
    }
}

/// Bytes to be read in turn.
pub trait Read {
    /// Moves the next bytes into `buf`, and says how many they are: none is the end.
    fn read(&mut self, buf: &mut [u8]) -> Result<usize>;

    /// Puts all bytes that are left behind the others of a vector, and says how many they were.
    fn read_to_end(&mut self, text: &mut Vec<u8>) -> Result<usize> {
        let (mut piece, mut count) = ([0; 4096], 0);
        loop {
            match self.read(&mut piece) {
                Ok(0) => return Ok(count),
                Ok(more) => {
                    text.extend_from_slice(&piece[..more])
                        .map_err(|_| Error::from(ErrorKind::OutOfMemory))?;
                    count += more;
                }
                Err(error) if error.kind() == ErrorKind::Interrupted => {}
                Err(error) => return Err(error),
            }
        }
    }
}

impl<R: std::io::Read> Read for R {
    fn read(&mut self, buf: &mut [u8]) -> Result<usize> {
        std::io::Read::read(self, buf)
    }
}
