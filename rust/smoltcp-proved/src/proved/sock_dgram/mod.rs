// Made from crates/sock_dgram/src/lib.rt by rust/translate: change it there.
//! The datagram sockets of smoltcp.

pub mod error;
pub mod icmp;
mod queue;
pub mod raw;
pub mod udp;
