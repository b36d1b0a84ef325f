// Made from crates/sock_tcp/src/error.rt by rust/translate: change it there.
//! Why a call is refused.

use core::error::Error;
use core::fmt;

/// Why `listen` is refused, as smoltcp.
#[derive(Debug, Clone, Copy, PartialEq, Eq)]
pub enum ListenError {
    /// The socket is open, and does not listen on this endpoint.
    InvalidState,
    /// The port is zero.
    Unaddressable,
}

impl fmt::Display for ListenError {
    fn fmt(&self, f: &mut fmt::Formatter<'_>) -> fmt::Result {
        match self {
            ListenError::InvalidState => write!(f, "invalid state"),
            ListenError::Unaddressable => write!(f, "unaddressable destination"),
        }
    }
}

impl Error for ListenError {}

/// Why `connect` is refused, as smoltcp.
#[derive(Debug, Clone, Copy, PartialEq, Eq)]
pub enum ConnectError {
    /// The socket is open.
    InvalidState,
    /// A port is zero, an address is unspecified or missing, or the two are of different versions.
    Unaddressable,
}

impl fmt::Display for ConnectError {
    fn fmt(&self, f: &mut fmt::Formatter<'_>) -> fmt::Result {
        match self {
            ConnectError::InvalidState => write!(f, "invalid state"),
            ConnectError::Unaddressable => write!(f, "unaddressable destination"),
        }
    }
}

impl Error for ConnectError {}

/// Why a call that sends is refused, as smoltcp.
#[derive(Debug, Clone, Copy, PartialEq, Eq)]
pub enum SendError {
    /// The state does not allow it.
    InvalidState,
}

impl SendError {
    /// What the error prints.
    pub fn text(self) -> &'static str {
        match self {
            SendError::InvalidState => "invalid state",
        }
    }
}

impl fmt::Display for SendError {
    fn fmt(&self, f: &mut fmt::Formatter<'_>) -> fmt::Result {
        write!(f, "{}", self.text())
    }
}

impl Error for SendError {}

/// Why a call that receives is refused, as smoltcp.
#[derive(Debug, Clone, Copy, PartialEq, Eq)]
pub enum RecvError {
    /// The state does not allow it.
    InvalidState,
    /// The peer closed, and all its bytes were read. No call answers it yet.
    Finished,
}

impl RecvError {
    /// What the error prints.
    pub fn text(self) -> &'static str {
        match self {
            RecvError::InvalidState => "invalid state",
            RecvError::Finished => "operation finished",
        }
    }
}

impl fmt::Display for RecvError {
    fn fmt(&self, f: &mut fmt::Formatter<'_>) -> fmt::Result {
        write!(f, "{}", self.text())
    }
}

impl Error for RecvError {}
