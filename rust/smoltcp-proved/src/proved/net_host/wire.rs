// Made from crates/net_host/src/wire.rt by rust/translate: change it there.
//! The context of a dispatch, which writes what is emitted into a buffer.

use crate::proved::net_host::environment::Environment;
use crate::proved::net_host::inner::{source_v4, source_v6};
use crate::proved::net_host::messages::put_message;
use crate::proved::net_host::replies::{put_datagram, put_raw, put_segment_with};
use crate::sockets::Context;
use crate::sockets::time::Instant;
use crate::sockets::wire::{
    ChecksumCapabilities, IcmpRepr, IpAddress, IpProtocol, IpRepr, Ipv4Address, Ipv6Address, TcpRepr, UdpRepr,
};

/// The buffer is too short for the packet.
#[derive(Debug, Clone, Copy, PartialEq, Eq)]
pub struct TooShort;

/// The context of a dispatch.
pub struct Wire<'w> {
    pub(crate) environment: &'w Environment,
    pub(crate) out: &'w mut [u8],
    // the length of the packet that was written, or 0
    pub(crate) len: usize,
    // whether a packet was dropped, as it was longer than the MTU
    pub(crate) lost: bool,
}

/// What a socket sent in its turn: the length of its packet, or 0 where none was written, and whether one was dropped,
/// as it was longer than the MTU.
#[derive(Debug, Clone, Copy, PartialEq, Eq)]
pub(crate) struct Sent {
    pub(crate) len: usize,
    pub(crate) lost: bool,
}

// The longest TCP header, in bytes (RFC 9293, section 3.1).
const LONGEST_HEADER: usize = 60;

// Over IPv6 a smaller MTU counts as this: its links carry 1280 bytes (RFC 8200, section 5).
const LEAST_IPV6_MTU: usize = 576;

// The largest packet with this header.
fn largest(ip: &IpRepr, mtu: usize) -> usize {
    match ip {
        IpRepr::Ipv4(_) => mtu,
        IpRepr::Ipv6(_) => mtu.max(LEAST_IPV6_MTU),
    }
}

// Whether the header counts the segment.
fn is_counted(ip: &IpRepr, repr: &TcpRepr<'_>, header_len: usize) -> bool {
    header_len <= LONGEST_HEADER
        && ip.payload_len() == header_len + repr.payload.len()
        && ip.next_header() == IpProtocol::Tcp
}

// Whether the header counts the message, and is of its version.
fn counts_message(ip: &IpRepr, repr: &IcmpRepr<'_>) -> bool {
    match (ip, repr) {
        (IpRepr::Ipv4(header), IcmpRepr::Ipv4(repr)) => header.payload_len == repr.buffer_len(),
        (IpRepr::Ipv6(header), IcmpRepr::Ipv6(repr)) => header.payload_len == repr.buffer_len(),
        _ => false,
    }
}

// Whether the header counts the datagram.
fn counts_datagram(ip: &IpRepr, payload: &[u8]) -> bool {
    ip.payload_len() >= 8 && ip.payload_len() - 8 == payload.len() && ip.next_header() == IpProtocol::Udp
}

impl<'w> Wire<'w> {
    /// Writes an IP packet with this payload at the beginning of the buffer. One longer than the MTU is dropped;
    /// `TooShort` where the buffer has no room for another.
    pub(crate) fn write_raw(&mut self, ip: &IpRepr, payload: &[u8]) -> Result<(), TooShort> {
        let room = largest(ip, self.environment.mtu);
        if room < ip.header_len() || room - ip.header_len() < payload.len() {
            self.lost = true;
            return Ok(());
        }
        if self.out.len() < ip.header_len() + payload.len() {
            return Err(TooShort);
        }
        let caps = self.environment.checksums;
        self.len = put_raw(ip, payload, self.out, &caps);
        Ok(())
    }

    /// Writes the message as an IP packet at the beginning of the buffer. One that is longer than the MTU is dropped;
    /// `TooShort` where the buffer has no room for another.
    pub(crate) fn write_message(&mut self, ip: &IpRepr, repr: &IcmpRepr<'_>) -> Result<(), TooShort> {
        if !counts_message(ip, repr) || self.is_too_long(ip) {
            self.lost = true;
            return Ok(());
        }
        if self.out.len() < ip.header_len() + ip.payload_len() {
            return Err(TooShort);
        }
        let caps = self.environment.checksums;
        self.len = put_message(ip, repr, self.out, &caps);
        Ok(())
    }

    /// Writes the datagram as an IP packet at the beginning of the buffer. One that is longer than the MTU is dropped;
    /// `TooShort` where the buffer has no room for another.
    pub(crate) fn write_datagram(
        &mut self,
        ip: &IpRepr,
        repr: &UdpRepr,
        payload: &[u8],
    ) -> Result<(), TooShort> {
        if !counts_datagram(ip, payload) || self.is_too_long(ip) {
            self.lost = true;
            return Ok(());
        }
        if self.out.len() < ip.header_len() + ip.payload_len() {
            return Err(TooShort);
        }
        let caps = self.environment.checksums;
        self.len = put_datagram(ip, repr, payload, self.out, &caps);
        Ok(())
    }

    /// Writes the segment as an IP packet at the beginning of the buffer. One that is longer than the MTU is dropped;
    /// `TooShort` where the buffer has no room for another.
    pub(crate) fn write_segment(&mut self, ip: &IpRepr, repr: &TcpRepr<'_>) -> Result<(), TooShort> {
        let header_len = repr.header_len();
        if !is_counted(ip, repr, header_len) || self.is_too_long(ip) {
            self.lost = true;
            return Ok(());
        }
        if self.out.len() < ip.header_len() + ip.payload_len() {
            return Err(TooShort);
        }
        let caps = self.environment.checksums;
        self.len = put_segment_with(ip, repr, header_len, self.out, &caps);
        Ok(())
    }

    // Whether the MTU has no room for a packet with this header.
    fn is_too_long(&self, ip: &IpRepr) -> bool {
        let room = largest(ip, self.environment.mtu);
        room < ip.header_len() || room - ip.header_len() < ip.payload_len()
    }
}

impl<'w> Context for Wire<'w> {
    fn now(&self) -> Instant {
        self.environment.now
    }

    fn has_ip_addr(&self, addr: IpAddress) -> bool {
        self.environment.has_ip_addr(&addr)
    }

    fn get_source_address(&self, dst: &IpAddress) -> Option<IpAddress> {
        self.environment.source(dst)
    }

    fn get_source_address_ipv4(&self, dst: &Ipv4Address) -> Option<Ipv4Address> {
        source_v4(self.environment, dst)
    }

    fn get_source_address_ipv6(&self, dst: &Ipv6Address) -> Ipv6Address {
        source_v6(self.environment, dst)
    }

    fn is_broadcast(&self, addr: &IpAddress) -> bool {
        self.environment.is_broadcast(addr)
    }

    fn ip_mtu(&self) -> usize {
        self.environment.mtu
    }

    fn checksum_caps(&self) -> ChecksumCapabilities {
        self.environment.checksums
    }

    // a dispatch draws no word
    fn rand_u32(&mut self) -> u32 {
        0
    }
}
