// Made from crates/ip_wire/src/malformed.rt by rust/translate: change it there.
//! What a packet is refused with.

use core::fmt;

/// The bytes are no packet of the form that was asked for.
#[derive(Debug, Clone, Copy, PartialEq, Eq)]
pub struct Error;

impl fmt::Display for Error {
    fn fmt(&self, f: &mut fmt::Formatter<'_>) -> fmt::Result {
        write!(f, "malformed packet")
    }
}

impl core::error::Error for Error {}
