// Made from crates/host_link/src/lib.rt by rust/translate: change it there.
//! A link in memory between two hosts of one program, for examples and tests.

pub mod link;
pub mod packet;

pub use link::Link;
