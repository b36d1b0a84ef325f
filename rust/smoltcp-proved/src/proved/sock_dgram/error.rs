// Made from crates/sock_dgram/src/error.rt by rust/translate: change it there.
//! Why a call of a datagram socket is refused.

use core::error::Error;
use core::fmt;

/// Why `bind` is refused, as smoltcp.
#[derive(Debug, Clone, Copy, PartialEq, Eq)]
pub enum BindError {
    /// The socket is open.
    InvalidState,
    /// The port is zero.
    Unaddressable,
}

impl fmt::Display for BindError {
    fn fmt(&self, f: &mut fmt::Formatter<'_>) -> fmt::Result {
        match self {
            BindError::InvalidState => write!(f, "invalid state"),
            BindError::Unaddressable => write!(f, "unaddressable"),
        }
    }
}

impl Error for BindError {}

/// Why a call that sends is refused, as smoltcp.
#[derive(Debug, Clone, Copy, PartialEq, Eq)]
pub enum SendError {
    /// The socket is not open, the destination has no address or no port, or the source is of another version of IP.
    Unaddressable,
    /// The transmit buffer has no place left, or not enough bytes in one piece.
    BufferFull,
}

impl fmt::Display for SendError {
    fn fmt(&self, f: &mut fmt::Formatter<'_>) -> fmt::Result {
        match self {
            SendError::Unaddressable => write!(f, "unaddressable"),
            SendError::BufferFull => write!(f, "buffer full"),
        }
    }
}

impl Error for SendError {}

/// Why a call that receives is refused, as smoltcp.
#[derive(Debug, Clone, Copy, PartialEq, Eq)]
pub enum RecvError {
    /// No datagram is there.
    Exhausted,
    /// The slice given is shorter than the datagram.
    Truncated,
}

impl fmt::Display for RecvError {
    fn fmt(&self, f: &mut fmt::Formatter<'_>) -> fmt::Result {
        match self {
            RecvError::Exhausted => write!(f, "exhausted"),
            RecvError::Truncated => write!(f, "truncated"),
        }
    }
}

impl Error for RecvError {}
