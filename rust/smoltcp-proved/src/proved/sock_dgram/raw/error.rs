// Made from crates/sock_dgram/src/raw/error.rt by rust/translate: change it there.
//! Why a raw socket refuses to send.

use core::error::Error;
use core::fmt;

/// Why a call that sends is refused, as smoltcp.
#[derive(Debug, Clone, Copy, PartialEq, Eq)]
pub enum SendError {
    /// The transmit buffer has no place left, or not enough bytes in one piece.
    BufferFull,
}

impl fmt::Display for SendError {
    fn fmt(&self, f: &mut fmt::Formatter<'_>) -> fmt::Result {
        match self {
            SendError::BufferFull => write!(f, "buffer full"),
        }
    }
}

impl Error for SendError {}
