// Made from crates/host_context/src/outbox.rt by rust/translate: change it there.
//! Packets that were emitted, as bytes.

use crate::kit::alloc::{AllocError, Global};
use crate::kit::{Vec, vec};
use crate::proved::segment_wire::packet;
use crate::proved::smoltcp_socket::wire::{
    ChecksumCapabilities, IcmpRepr, Icmpv4Repr, Icmpv6Repr, IpProtocol, IpRepr, Ipv6Repr, TcpRepr, UdpRepr,
};
use core::mem;

/// The packets that were emitted and not taken out yet, the oldest first.
///
/// The sockets emit no packet whose header does not count what it carries. A call that is refused for want of memory
/// leaves the packets as they were.
pub struct Outbox {
    alloc: Global,
    pub(crate) packets: Vec<Vec<u8>>,
}

impl Outbox {
    /// An empty one.
    pub fn new(alloc: Global) -> Outbox {
        Outbox { alloc, packets: Vec::new(alloc) }
    }

    /// The packets in it, which is empty afterwards.
    pub fn take(&mut self) -> Vec<Vec<u8>> {
        let empty = Vec::new(self.alloc);
        mem::replace(&mut self.packets, empty)
    }

    fn add(&mut self, packet: Vec<u8>) -> Result<(), AllocError> {
        self.packets.push(packet)?;
        Ok(())
    }

    /// Adds an IP packet with this segment, and says whether its header counts it; where not, nothing is added.
    ///
    /// # Errors
    /// An error where there is no memory for it; nothing is added then.
    pub fn emit_tcp(
        &mut self,
        ip: &IpRepr,
        repr: &TcpRepr<'_>,
        caps: &ChecksumCapabilities,
    ) -> Result<bool, AllocError> {
        if !carries_tcp(ip, repr) {
            return Ok(false);
        }
        let mut bytes = self.with_room_before(ip.header_len() + repr.header_len(), repr.payload)?;
        packet::emit_tcp_front(ip, repr, bytes.as_mut_slice(), caps);
        self.add(bytes)?;
        Ok(true)
    }

    // A payload behind the room for the headers of its packet, which have 100 bytes at most. A packet that is filled
    // with zeros first is written twice.
    fn with_room_before(&self, room: usize, payload: &[u8]) -> Result<Vec<u8>, AllocError> {
        let mut bytes = Vec::with_capacity(self.alloc, room + payload.len())?;
        bytes.resize(room, 0)?;
        bytes.extend_from_slice(payload)?;
        Ok(bytes)
    }

    /// Adds a packet with this UDP datagram. False where the header does not carry it: then nothing is added.
    ///
    /// # Errors
    /// An error where there is no memory for it; nothing is added then.
    pub fn emit_udp(
        &mut self,
        ip: &IpRepr,
        repr: &UdpRepr,
        payload: &[u8],
        caps: &ChecksumCapabilities,
    ) -> Result<bool, AllocError> {
        if !carries_udp(ip, payload) {
            return Ok(false);
        }
        let mut bytes = vec![in self.alloc; 0u8; ip.header_len() + 8 + payload.len()]?;
        packet::emit_udp(ip, repr, payload, bytes.as_mut_slice(), caps);
        self.add(bytes)?;
        Ok(true)
    }

    /// Adds an IP packet with this payload, whatever it is.
    ///
    /// # Errors
    /// An error where there is no memory for it; nothing is added then.
    pub fn emit_raw(
        &mut self,
        ip: &IpRepr,
        payload: &[u8],
        caps: &ChecksumCapabilities,
    ) -> Result<(), AllocError> {
        let mut bytes = self.with_room_before(ip.header_len(), payload)?;
        ip.emit(bytes.as_mut_slice(), caps);
        self.add(bytes)
    }

    /// Adds an IP packet with this ICMP message; one of the other version than the header's is dropped.
    ///
    /// # Errors
    /// An error where there is no memory for it; nothing is added then.
    pub fn emit_icmp(
        &mut self,
        ip: &IpRepr,
        repr: &IcmpRepr<'_>,
        caps: &ChecksumCapabilities,
    ) -> Result<(), AllocError> {
        match (ip, repr) {
            (IpRepr::Ipv4(_), IcmpRepr::Ipv4(message)) => self.emit_icmpv4(ip, message, caps),
            (IpRepr::Ipv6(header), IcmpRepr::Ipv6(message)) => self.emit_icmpv6(ip, header, message, caps),
            _ => Ok(()),
        }
    }

    fn emit_icmpv4(
        &mut self,
        ip: &IpRepr,
        message: &Icmpv4Repr<'_>,
        caps: &ChecksumCapabilities,
    ) -> Result<(), AllocError> {
        let mut bytes = vec![in self.alloc; 0u8; message.buffer_len()]?;
        message.emit(bytes.as_mut_slice(), caps);
        self.emit_raw(ip, bytes.as_slice(), caps)
    }

    fn emit_icmpv6(
        &mut self,
        ip: &IpRepr,
        header: &Ipv6Repr,
        message: &Icmpv6Repr<'_>,
        caps: &ChecksumCapabilities,
    ) -> Result<(), AllocError> {
        let mut bytes = vec![in self.alloc; 0u8; message.buffer_len()]?;
        message.emit(&header.src_addr, &header.dst_addr, bytes.as_mut_slice(), caps);
        self.emit_raw(ip, bytes.as_slice(), caps)
    }
}

// Whether the header counts the segment.
fn carries_tcp(ip: &IpRepr, repr: &TcpRepr<'_>) -> bool {
    repr.header_len() <= 60 && ip.payload_len() == repr.buffer_len() && ip.next_header() == IpProtocol::Tcp
}

// Whether the header counts a datagram of this payload.
fn carries_udp(ip: &IpRepr, payload: &[u8]) -> bool {
    ip.payload_len() >= 8 && ip.payload_len() - 8 == payload.len() && ip.next_header() == IpProtocol::Udp
}
