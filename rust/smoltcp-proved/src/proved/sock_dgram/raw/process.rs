// Made from crates/sock_dgram/src/raw/process.rt by rust/translate: change it there.
//! Packets that come in.

use crate::proved::ip_wire::{ChecksumCapabilities, IpRepr};
use crate::proved::sock_core::Context;
use crate::proved::sock_dgram::queue::store_both;
use crate::proved::sock_dgram::raw::socket::Socket;

impl<'a> Socket<'a> {
    /// Whether a packet is for this socket: its version of IP and its protocol are those asked for, where any are.
    pub fn accepts(&self, ip_repr: &IpRepr) -> bool {
        self.ip_version().is_none_or(|version| version == ip_repr.version())
            && self.ip_protocol().is_none_or(|protocol| protocol == ip_repr.next_header())
    }

    /// Puts a packet into the receive queue: its header as `IpRepr::emit` writes it with the checksum settings of the
    /// context, and its payload. Where the receive buffer has no room for it, it is dropped.
    pub fn process<C: Context>(&mut self, cx: &C, ip_repr: &IpRepr, payload: &[u8]) {
        let caps = cx.checksum_caps();
        let mut octets = [0; 40];
        let header = written(ip_repr, &caps, &mut octets);
        store_both(&mut self.rx_buffer, (), header, payload);
    }
}

// The header, written to the beginning of these octets.
fn written<'o>(ip_repr: &IpRepr, caps: &ChecksumCapabilities, octets: &'o mut [u8; 40]) -> &'o [u8] {
    let len = ip_repr.header_len();
    ip_repr.emit(octets.as_mut_slice(), caps);
    &octets[..len]
}
