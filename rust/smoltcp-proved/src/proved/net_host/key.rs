// Made from crates/net_host/src/key.rt by rust/translate: change it there.
//! The keys of a place.
use crate::proved::host_index::Entry;

/// What a place is filed under.
#[derive(Debug, Clone, Copy, PartialEq, Eq)]
pub enum Key {
    /// It takes no segment.
    Nothing,
    /// This key, whose place is 0.
    Under(Entry),
}

/// The keys of a place.
#[derive(Debug, Clone, Copy, PartialEq, Eq)]
pub struct Keys {
    /// By the segments that it takes.
    pub first: Key,
    /// By the port that it was opened on.
    pub second: Key,
    /// Whether nothing is there.
    pub free: bool,
}
