// Made from crates/host_context/src/lib.rt by rust/translate: change it there.
//! What a program on the sockets need not write: a context with one address of each version of IP, random words from a
//! seed or from a source of one's own, and an outbox of packets as bytes.
//!
//! `Interface` is the context of every call of a socket. `Outbox` holds the packets that sockets emitted, and
//! `dispatch_tcp`, `take_packets` and `receive_tcp` are the interface layer of a host with TCP sockets.

pub mod interface;
pub mod layer;
pub mod outbox;
pub mod words;

pub use interface::Interface;
pub use layer::{dispatch_tcp, receive_tcp, take_packets};
pub use outbox::Outbox;
pub use words::{Seeded, Words};
