// Made from crates/sock_pair/src/script/stream.rt by rust/translate: change it there.
//! Where a script comes from, and where its output goes.

/// A read or a write that failed. It has no text: its caller says which stream it was.
#[derive(Debug, Clone, Copy, PartialEq, Eq)]
pub struct StreamFault;

/// Bytes to be read in turn.
pub trait Source {
    /// Moves the next bytes into `buf` and answers how many they are. 0 for a slice that is not
    /// empty is the end.
    fn read(&mut self, buf: &mut [u8]) -> Result<usize, StreamFault>;

    /// Whether a call has answered the fault.
    fn failed(&self) -> bool;
}

/// Bytes to be written in turn.
pub trait Sink {
    /// Appends the whole slice. Where it answers the fault, a part of the slice may be written.
    fn write_all(&mut self, bytes: &[u8]) -> Result<(), StreamFault>;

    /// Whether a call has answered the fault.
    fn failed(&self) -> bool;
}
