// Made from crates/host_groups/src/lib.rt by rust/translate: change it there.
//! Groups that an interface has joined, of which there are at most four.

pub mod joining;

pub use joining::{Groups, MulticastError};
