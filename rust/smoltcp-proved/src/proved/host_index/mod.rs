// Made from crates/host_index/src/lib.rt by rust/translate: change it there.
//! An index of many places under two keys each, in order.

pub mod columns;
pub mod entry;
pub mod guesses;
pub mod index;
pub mod known;

pub use entry::{Entry, Which};
pub use index::Index;
