// Made from crates/drill_lines/src/room.rt by rust/translate: change it there.
//! The sockets that an example makes.

use crate::proved::ip_wire::{IpProtocol, IpVersion};

/// The largest number of bytes that wait in one direction.
pub const BYTES: usize = 1_048_576;

/// The largest number of packets that wait in one direction.
pub const PLACES: usize = 4096;

/// How many packets, and how many of their bytes, may wait: those that come, and those that go.
#[derive(Clone, Copy)]
pub struct Queues {
    pub rx_places: usize,
    pub rx_bytes: usize,
    pub tx_places: usize,
    pub tx_bytes: usize,
}

/// A socket that is to be made.
#[derive(Clone, Copy)]
pub enum Room {
    Tcp { rx: usize, tx: usize },
    Udp(Queues),
    Icmp(Queues),
    Raw(Option<IpVersion>, Option<IpProtocol>, Queues),
}
