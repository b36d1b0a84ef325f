// Made from crates/host_link/src/link.rt by rust/translate: change it there.
//! One end of a link, which is a device of its host.

use crate::proved::host_link::packet::{LONGEST, Packet};
use crate::proved::net_host::Device;
use core::mem;

/// One end of a link in memory: a packet that arrived, and one that was sent, of at most 1500 bytes each.
pub struct Link {
    arrived: Packet,
    sent: Packet,
}

impl Link {
    /// An end where nothing arrived, and nothing was sent.
    pub fn new() -> Link {
        Link { arrived: Packet::none(), sent: Packet::none() }
    }

    /// What each end sent arrives at the other, in the place of what arrived there before.
    pub fn pass(&mut self, other: &mut Link) {
        let (here, there) = (Packet::none(), Packet::none());
        self.arrived = mem::replace(&mut other.sent, there);
        other.arrived = mem::replace(&mut self.sent, here);
    }
}

impl Device for Link {
    fn max_transmission_unit(&self) -> usize {
        LONGEST
    }

    fn has_room(&self) -> bool {
        self.sent.is_none()
    }

    fn receive(&mut self, packet: &mut [u8]) -> usize {
        self.arrived.take_to(packet)
    }

    fn transmit(&mut self, packet: &[u8]) {
        self.sent.put(packet);
    }
}
