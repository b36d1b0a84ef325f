// Made from crates/sock_pair/src/lib.rt by rust/translate: change it there.
//! Two TCP sockets with every segment that they emitted, and scripts of what happens to them.
//!
//! `Pair`, its events and the theorem on the two streams are those of `pair_core`; `script` reads events from a text,
//! plays them on a `Pair` and writes what came of each.

pub mod example;
pub mod script;

pub use crate::proved::pair_core::{
    Event, HopLimit, Interval, Moment, Outcome, Pair, PairError, Segment, Setting, Setup, Side, event, laws,
    moment, outcome, pair, segment, setting, side, streams, too_old,
};
