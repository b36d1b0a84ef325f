// Made from crates/net_host/src/path_mtu.rt by rust/translate: change it there.
//! A router says that a packet of a connection was too long for the next hop (RFC 1191, RFC 8201).

use crate::kit::Vec;
use crate::proved::host_context::Words;
use crate::proved::ip_wire::octets::{be16_at, be32_at, behind};
use crate::proved::ip_wire::sum::{pseudo_sum, sum_after};
use crate::proved::net_host::asked::Asked;
use crate::proved::net_host::interface::Interface;
use crate::proved::net_host::segments::first_taker;
use crate::proved::net_host::set::SocketSet;
use crate::proved::net_host::slot::Slot;
use crate::sockets::sock_tcp::TsvalSource;
use crate::sockets::time::Instant;
use crate::sockets::wire::{
    ChecksumCapabilities, IpAddress, IpProtocol, IpRepr, Ipv4Repr, Ipv6Repr, TcpControl, TcpRepr,
    TcpSeqNumber,
};
use crate::sockets::{Context, Socket};

/// What a router says of a packet that was too long.
#[derive(Debug, Clone, Copy)]
pub struct TooBig {
    /// The header of what the packet's peer would answer.
    pub back: IpRepr,
    /// The ports of the packet: its own, and the peer's.
    pub local_port: u16,
    pub remote_port: u16,
    /// Its sequence number.
    pub number: TcpSeqNumber,
    /// The MTU of the next hop; 0 where the router does not tell it.
    pub mtu: usize,
}

// The first eight bytes of a segment have its ports and its number.
fn said_of(back: IpRepr, bytes: &[u8], mtu: usize) -> TooBig {
    TooBig {
        back,
        local_port: be16_at(bytes, 0) as u16,
        remote_port: be16_at(bytes, 2) as u16,
        number: TcpSeqNumber(be32_at(bytes, 4)),
        mtu,
    }
}

fn back_v4(header: &Ipv4Repr) -> IpRepr {
    IpRepr::Ipv4(Ipv4Repr {
        src_addr: header.dst_addr,
        dst_addr: header.src_addr,
        next_header: IpProtocol::Tcp,
        payload_len: 0,
        hop_limit: 64,
    })
}

fn back_v6(header: &Ipv6Repr) -> IpRepr {
    IpRepr::Ipv6(Ipv6Repr {
        src_addr: header.dst_addr,
        dst_addr: header.src_addr,
        next_header: IpProtocol::Tcp,
        payload_len: 0,
        hop_limit: 64,
    })
}

// The packet that is quoted.
fn quotes_v4(mtu: usize, packet: &[u8]) -> Option<TooBig> {
    if packet.len() < 28 {
        return None;
    }
    let header = (packet[0] % 16) as usize * 4;
    if packet[0] / 16 != 4 || header < 20 || packet.len() < header + 8 {
        return None;
    }
    let ip = Ipv4Repr::of_fields(packet, packet.len() - header);
    if u8::from(ip.next_header) != 6 {
        return None;
    }
    Some(said_of(back_v4(&ip), behind(packet, header), mtu))
}

fn quotes_v6(mtu: usize, packet: &[u8]) -> Option<TooBig> {
    if packet.len() < 48 || packet[0] / 16 != 6 {
        return None;
    }
    let ip = Ipv6Repr::of_fields(packet, packet.len() - 40);
    if u8::from(ip.next_header) != 6 {
        return None;
    }
    Some(said_of(back_v6(&ip), behind(packet, 40), mtu))
}

fn is_message(tested: bool, start: u16, bytes: &[u8]) -> bool {
    bytes.len() >= 8 && (!tested || sum_after(start, bytes) == 0xffff)
}

fn too_big_v4(tested: bool, bytes: &[u8]) -> Option<TooBig> {
    if bytes.len() < 8 || bytes[0] != 3 || bytes[1] != 4 || !is_message(tested, 0, bytes) {
        return None;
    }
    quotes_v4(be16_at(bytes, 6), behind(bytes, 8))
}

fn too_big_v6(tested: bool, ip: &Ipv6Repr, bytes: &[u8]) -> Option<TooBig> {
    if bytes.len() < 8 || bytes[0] != 2 {
        return None;
    }
    let src = IpAddress::Ipv6(ip.src_addr);
    let dst = IpAddress::Ipv6(ip.dst_addr);
    if !is_message(tested, pseudo_sum(&src, &dst, 58, bytes.len()), bytes) {
        return None;
    }
    quotes_v6(be32_at(bytes, 4) as usize, behind(bytes, 8))
}

/// What the message behind the header says of a packet that was too long, if that is what it says.
pub(crate) fn too_big_in(caps: &ChecksumCapabilities, ip: &IpRepr, bytes: &[u8]) -> Option<TooBig> {
    match ip {
        IpRepr::Ipv4(ip) if u8::from(ip.next_header) == 1 => too_big_v4(caps.icmpv4.rx(), bytes),
        IpRepr::Ipv6(ip) if u8::from(ip.next_header) == 58 => too_big_v6(caps.icmpv6.rx(), ip, bytes),
        _ => None,
    }
}

impl TooBig {
    // What the packet's peer would answer.
    fn answer(&self) -> TcpRepr<'static> {
        TcpRepr {
            src_port: self.remote_port,
            dst_port: self.local_port,
            control: TcpControl::None,
            seq_number: TcpSeqNumber(0),
            ack_number: None,
            window_len: 0,
            window_scale: None,
            max_seg_size: None,
            sack_permitted: false,
            sack_ranges: [None, None, None],
            timestamp: None,
            payload: &[],
        }
    }
}

impl<'a, G: TsvalSource> Slot<'a, G> {
    // Whether the connection hears it.
    fn narrow(&mut self, now: Instant, said: &TooBig) -> bool {
        match &mut self.socket {
            Some(Socket::Tcp(tcp)) => {
                let took = tcp.is_outstanding(said.number);
                if took {
                    tcp.set_path_mtu(now, said.mtu);
                }
                took
            }
            _ => false,
        }
    }
}

fn narrow_there<G: TsvalSource>(slots: &mut Vec<Slot<'_, G>>, i: usize, now: Instant, said: &TooBig) -> bool {
    slots[i].narrow(now, said)
}

// The connection at this place hears it, if the number is one that it sent.
fn narrow_at<G: TsvalSource>(sockets: &mut SocketSet<'_, G>, i: usize, now: Instant, said: &TooBig) -> bool {
    sockets.lend(i);
    narrow_there(&mut sockets.slots, i, now, said)
}

fn connection_of<C: Context, G: TsvalSource>(
    sockets: &mut SocketSet<'_, G>,
    cx: &C,
    said: &TooBig,
) -> Option<usize> {
    sockets.settle();
    let mut asked = Asked::none();
    first_taker(sockets, cx, false, &said.back, &said.answer(), &mut asked)
}

// Whether a connection hears it.
fn hear_too_big<C: Context, G: TsvalSource>(sockets: &mut SocketSet<'_, G>, cx: &C, said: &TooBig) -> bool {
    match connection_of(sockets, cx, said) {
        Some(i) => narrow_at(sockets, i, cx.now(), said),
        None => false,
    }
}

/// A connection hears that a packet of its own was too long, where that is said: whether one did.
pub(crate) fn hear_said<C: Context, G: TsvalSource>(
    sockets: &mut SocketSet<'_, G>,
    cx: &C,
    said: &Option<TooBig>,
) -> bool {
    match said {
        Some(said) => hear_too_big(sockets, cx, said),
        None => false,
    }
}

impl<W: Words> Interface<W> {
    // Not inlined, as `take_other`.
    #[inline(never)]
    pub(crate) fn take_icmp<G: TsvalSource>(
        &mut self,
        sockets: &mut SocketSet<'_, G>,
        ip: &IpRepr,
        bytes: &[u8],
        out: &mut [u8],
    ) -> usize {
        let said = too_big_in(&self.inner.checksum_caps(), ip, bytes);
        let took = hear_said(sockets, &self.inner, &said);
        self.take_message(sockets, took, ip, bytes, out)
    }
}
