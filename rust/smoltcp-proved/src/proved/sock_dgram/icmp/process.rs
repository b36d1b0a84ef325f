// Made from crates/sock_dgram/src/icmp/process.rt by rust/translate: change it there.
//! Messages that come in.

use crate::proved::control_wire::{Icmpv4Repr, Icmpv6Repr, tcp_source, udp_source};
use crate::proved::ip_wire::{ChecksumCapabilities, IpAddress, IpListenEndpoint, Ipv4Repr, Ipv6Repr};
use crate::proved::sock_core::Context;
use crate::proved::sock_dgram::icmp::endpoint::Endpoint;
use crate::proved::sock_dgram::icmp::socket::{PacketBuffer, Socket};

// Whether an address is the bound one, where one is bound.
fn is_to(endpoint: &IpListenEndpoint, to: IpAddress) -> bool {
    match endpoint.addr {
        None => true,
        Some(addr) => to == addr,
    }
}

impl<'a> Socket<'a> {
    fn takes_ident(&self, ident: u16) -> bool {
        matches!(self.endpoint, Endpoint::Ident(bound) if bound == ident)
    }

    // Whether an error that came to `to` is for this socket: it quotes a packet between these addresses.
    fn takes_error<C: Context>(
        &self,
        cx: &C,
        to: IpAddress,
        src: IpAddress,
        dst: IpAddress,
        body: &[u8],
    ) -> bool {
        let caps = cx.checksum_caps();
        match self.endpoint {
            Endpoint::Udp(endpoint) => {
                is_to(&endpoint, to) && udp_source(body, &src, &dst, &caps) == Some(endpoint.port)
            }
            Endpoint::Tcp(endpoint) => {
                is_to(&endpoint, to) && tcp_source(body, &src, &dst, &caps) == Some(endpoint.port)
            }
            Endpoint::Unspecified | Endpoint::Ident(_) => false,
        }
    }

    /// Whether a message over IPv4 is for this socket: an echo with the bound identifier, or an error that quotes a
    /// UDP datagram or a TCP segment which parses whole and was sent from the bound port, and which came to the bound
    /// address, where one is bound.
    pub fn accepts_v4<C: Context>(&self, cx: &C, ip_repr: &Ipv4Repr, icmp_repr: &Icmpv4Repr<'_>) -> bool {
        match icmp_repr {
            Icmpv4Repr::EchoRequest { ident, .. } | Icmpv4Repr::EchoReply { ident, .. } => {
                self.takes_ident(*ident)
            }
            Icmpv4Repr::DstUnreachable { header, body, .. }
            | Icmpv4Repr::TimeExceeded { header, body, .. } => self.takes_error(
                cx,
                IpAddress::Ipv4(ip_repr.dst_addr),
                IpAddress::Ipv4(header.src_addr),
                IpAddress::Ipv4(header.dst_addr),
                body,
            ),
        }
    }

    /// Whether a message over IPv6 is for this socket; never a parameter problem, as in smoltcp.
    pub fn accepts_v6<C: Context>(&self, cx: &C, ip_repr: &Ipv6Repr, icmp_repr: &Icmpv6Repr<'_>) -> bool {
        match icmp_repr {
            Icmpv6Repr::EchoRequest { ident, .. } | Icmpv6Repr::EchoReply { ident, .. } => {
                self.takes_ident(*ident)
            }
            Icmpv6Repr::DstUnreachable { header, body, .. }
            | Icmpv6Repr::TimeExceeded { header, body, .. } => self.takes_error(
                cx,
                IpAddress::Ipv6(ip_repr.dst_addr),
                IpAddress::Ipv6(header.src_addr),
                IpAddress::Ipv6(header.dst_addr),
                body,
            ),
            Icmpv6Repr::ParamProblem { .. } => false,
        }
    }

    /// Puts a message over IPv4 that `accepts_v4` holds of into the receive queue, with its checksum and with the
    /// address that it came from. Where the receive buffer has no room for it, it is dropped.
    pub fn process_v4<C: Context>(&mut self, _cx: &C, ip_repr: &Ipv4Repr, icmp_repr: &Icmpv4Repr<'_>) {
        let remote = IpAddress::Ipv4(ip_repr.src_addr);
        store_v4(&mut self.rx_buffer, remote, icmp_repr);
    }

    /// Queues a message over IPv6 that the socket accepts; it is dropped where the queue has no room.
    pub fn process_v6<C: Context>(&mut self, _cx: &C, ip_repr: &Ipv6Repr, icmp_repr: &Icmpv6Repr<'_>) {
        let remote = IpAddress::Ipv6(ip_repr.src_addr);
        store_v6(&mut self.rx_buffer, remote, ip_repr, icmp_repr);
    }
}

// Puts the message into the queue, with its checksum and with this address.
fn store_v4(buffer: &mut PacketBuffer<'_>, remote: IpAddress, icmp_repr: &Icmpv4Repr<'_>) {
    let size = icmp_repr.buffer_len();
    let (taken, from) = buffer.claim(size, remote);
    if !taken {
        return;
    }
    let lent = buffer.part_mut(from, size);
    icmp_repr.emit(lent, &ChecksumCapabilities::default());
}

fn store_v6(
    buffer: &mut PacketBuffer<'_>,
    remote: IpAddress,
    ip_repr: &Ipv6Repr,
    icmp_repr: &Icmpv6Repr<'_>,
) {
    let size = icmp_repr.buffer_len();
    let (taken, from) = buffer.claim(size, remote);
    if !taken {
        return;
    }
    let lent = buffer.part_mut(from, size);
    let caps = ChecksumCapabilities::default();
    icmp_repr.emit(&ip_repr.src_addr, &ip_repr.dst_addr, lent, &caps);
}
