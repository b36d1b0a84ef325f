// Made from crates/smoltcp_socket/src/lib.rt by rust/translate: change it there.
//! The sockets of smoltcp: TCP, UDP, ICMP and raw, each in its module, and `Socket`, which holds one of any kind.
//!
//! This is the crate that a user of the sockets depends on. An interface layer gives each call a `Context`, hands what
//! comes in to `process` of the socket that `accepts` it, and calls `dispatch` when `poll_at` says so.

pub mod any_socket;
pub mod laws;
pub mod socket;
pub mod storage;
pub mod tcp;
pub mod time;
pub mod wire;

pub use crate::proved::sock_core::{Context, PollAt, context, ranges};
pub use crate::proved::sock_dgram::{icmp, raw, udp};
pub use any_socket::AnySocket;
pub use socket::Socket;
