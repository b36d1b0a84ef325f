// Made from crates/host_guard/src/lib.rt by rust/translate: change it there.
//! Limits that a host sets its TCP connections, so that no peer keeps it busy for ever or keeps its sockets taken.

pub mod guard;

pub use guard::Guard;
