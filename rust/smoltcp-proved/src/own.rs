//! Packets from an interface to itself, on a device that may hand back what is sent: [`net_host`] drops them, as from
//! others they would be forged (RFC 1122, section 3.2.1.3). By hand, and not proved: which socket hears one; each call
//! of that socket is.
use crate::iface::handle_at;
use crate::proved::control_wire::{IcmpRepr, Icmpv4Repr, Icmpv6Repr};
use crate::proved::ip_wire::{ChecksumCapabilities, IpAddress, IpProtocol, IpRepr};
use crate::proved::net_base::Instant;
use crate::proved::net_host::{self, Secret, SocketHandle};
use crate::proved::segment_wire::packet::{carried, emit_tcp, parse_tcp, parse_udp};
use crate::sockets::tcp::{self, State};
use crate::sockets::{Context, Socket};

type Host = net_host::Interface<Secret>;

/// Hands a packet between own addresses to its sockets: the length of the answer in `reply`, and `None`
/// where it is no such packet.
pub(crate) fn hear(
    host: &mut Host,
    loops_back: bool,
    set: &mut net_host::SocketSet<'_>,
    now: Instant,
    packet: &[u8],
    reply: &mut [u8],
) -> Option<usize> {
    if !loops_back || !is_between_own(host, packet) {
        return None;
    }
    host.inner.environment.set_now(now);
    let (ip, payload) = carried(packet, &host.context().checksum_caps())?;
    let raw = hear_raw(host, set, &ip, payload);
    match ip.next_header() {
        IpProtocol::Tcp => Some(hear_segment(host, set, packet, reply)),
        IpProtocol::Udp => {
            hear_datagram(host, set, packet);
            Some(0)
        }
        IpProtocol::Icmp | IpProtocol::Icmpv6 => Some(hear_message(host, set, &ip, payload, reply)),
        _ if raw => Some(0),
        _ => None,
    }
}

// The sockets, in order.
fn all(set: &net_host::SocketSet<'_>) -> impl Iterator<Item = SocketHandle> {
    (0..set.capacity()).filter_map(|place| handle_at(set, place))
}

// A copy for each raw socket: whether there is one.
fn hear_raw(host: &mut Host, set: &mut net_host::SocketSet<'_>, ip: &IpRepr, payload: &[u8]) -> bool {
    let (cx, mut heard) = (host.context(), false);
    for place in 0..set.capacity() {
        let Some(handle) = handle_at(set, place) else { continue };
        if !matches!(set.get(handle), Some(Socket::Raw(raw)) if raw.accepts(ip)) {
            continue;
        }
        if let Some(raw) = set.raw_mut(handle) {
            raw.process(cx, ip, payload);
            heard = true;
        }
    }
    heard
}

// A copy for each ICMP socket that accepts it, and an answer to an echo request.
fn hear_message(
    host: &mut Host,
    set: &mut net_host::SocketSet<'_>,
    ip: &IpRepr,
    message: &[u8],
    reply: &mut [u8],
) -> usize {
    let cx = host.context();
    let caps = cx.checksum_caps();
    let message = match ip {
        IpRepr::Ipv4(_) => Icmpv4Repr::parse(message, &caps).map(IcmpRepr::Ipv4),
        IpRepr::Ipv6(ip) => Icmpv6Repr::parse(&ip.src_addr, &ip.dst_addr, message, &caps).map(IcmpRepr::Ipv6),
    };
    let Ok(message) = message else { return 0 };
    for place in 0..set.capacity() {
        let Some(handle) = handle_at(set, place) else { continue };
        let accepts = match (set.get(handle), ip, &message) {
            (Some(Socket::Icmp(icmp)), IpRepr::Ipv4(ip), IcmpRepr::Ipv4(repr)) => {
                icmp.accepts_v4(cx, ip, repr)
            }
            (Some(Socket::Icmp(icmp)), IpRepr::Ipv6(ip), IcmpRepr::Ipv6(repr)) => {
                icmp.accepts_v6(cx, ip, repr)
            }
            _ => false,
        };
        match (set.icmp_mut(handle).filter(|_| accepts), ip, &message) {
            (Some(icmp), IpRepr::Ipv4(ip), IcmpRepr::Ipv4(repr)) => icmp.process_v4(cx, ip, repr),
            (Some(icmp), IpRepr::Ipv6(ip), IcmpRepr::Ipv6(repr)) => icmp.process_v6(cx, ip, repr),
            _ => {}
        }
    }
    echo(ip, message, reply)
}

// The answer to an echo request (RFC 792, RFC 4443, section 4.2), and 0 to another message, or where it has no room.
fn echo(ip: &IpRepr, message: IcmpRepr<'_>, reply: &mut [u8]) -> usize {
    let caps = ChecksumCapabilities::default();
    let answer = match message {
        IcmpRepr::Ipv4(Icmpv4Repr::EchoRequest { ident, seq_no, body }) => {
            IcmpRepr::Ipv4(Icmpv4Repr::EchoReply { ident, seq_no, body })
        }
        IcmpRepr::Ipv6(Icmpv6Repr::EchoRequest { ident, seq_no, body }) => {
            IcmpRepr::Ipv6(Icmpv6Repr::EchoReply { ident, seq_no, body })
        }
        _ => return 0,
    };
    let size = match &answer {
        IcmpRepr::Ipv4(repr) => repr.buffer_len(),
        IcmpRepr::Ipv6(repr) => repr.buffer_len(),
    };
    let back = IpRepr::new(ip.dst_addr(), ip.src_addr(), ip.next_header(), size, 64);
    let (start, end) = (back.header_len(), back.header_len() + size);
    if reply.len() < end {
        return 0;
    }
    back.emit(reply, &caps);
    match (&back, &answer) {
        (IpRepr::Ipv6(back), IcmpRepr::Ipv6(repr)) => {
            repr.emit(&back.src_addr, &back.dst_addr, &mut reply[start..end], &caps);
        }
        (_, IcmpRepr::Ipv4(repr)) => repr.emit(&mut reply[start..end], &caps),
        _ => return 0,
    }
    end
}

// By the bytes where the addresses stand, before anything is looked at: few packets are.
fn is_between_own(host: &Host, packet: &[u8]) -> bool {
    let own = |addr: IpAddress| host.inner.environment.has_ip_addr(&addr);
    match packet {
        [0x40..=0x4f, ..] if packet.len() >= 20 => {
            let addr = |at: usize| IpAddress::v4(packet[at], packet[at + 1], packet[at + 2], packet[at + 3]);
            own(addr(12)) && own(addr(16))
        }
        [0x60..=0x6f, ..] if packet.len() >= 40 => {
            let addr = |at: usize| {
                <[u8; 16]>::try_from(&packet[at..at + 16]).map(|octets| crate::kit::ipv6(octets).into())
            };
            addr(8).is_ok_and(own) && addr(24).is_ok_and(own)
        }
        _ => false,
    }
}

// A connection that accepts it comes before a socket that listens; one for no socket is answered by an RST.
fn hear_segment(
    host: &mut Host,
    set: &mut net_host::SocketSet<'_>,
    packet: &[u8],
    reply: &mut [u8],
) -> usize {
    let (cx, caps) = (host.context(), ChecksumCapabilities::default());
    let Ok((ip, repr)) = parse_tcp(packet, &cx.checksum_caps()) else { return 0 };
    let wanted = |listens: bool| {
        all(set).find(|handle| match set.get(*handle) {
            Some(Socket::Tcp(tcp)) => {
                (tcp.state() == State::Listen) == listens && tcp.accepts(cx, &ip, &repr)
            }
            _ => false,
        })
    };
    let answer = match wanted(false).or_else(|| wanted(true)) {
        Some(handle) => set.tcp_mut(handle).and_then(|tcp| tcp.process(cx, &ip, &repr)),
        None if repr.control == crate::proved::control_wire::TcpControl::Rst => None,
        None => Some(tcp::Socket::rst_reply(&ip, &repr)),
    };
    let Some((ip, repr)) = answer else { return 0 };
    let len = ip.header_len() + ip.payload_len();
    emit_tcp(&ip, &repr, &mut reply[..len], &caps);
    len
}

fn hear_datagram(host: &mut Host, set: &mut net_host::SocketSet<'_>, packet: &[u8]) {
    let cx = host.context();
    let Ok((ip, repr, payload)) = parse_udp(packet, &cx.checksum_caps()) else { return };
    let accepts = |ip: &IpRepr, handle| match set.get(handle) {
        Some(Socket::Udp(udp)) => udp.accepts(cx, ip, &repr),
        _ => false,
    };
    let found = all(set).find(|handle| accepts(&ip, *handle));
    if let Some(udp) = found.and_then(|handle| set.udp_mut(handle)) {
        udp.process(cx, &ip, &repr, payload);
    }
}
