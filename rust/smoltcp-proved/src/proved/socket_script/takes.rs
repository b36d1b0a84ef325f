// Made from crates/socket_script/src/takes.rt by rust/translate: change it there.
//! Packets that come to a socket, written by hand or emitted by another.

use crate::kit::alloc::{AllocError, Global};
use crate::kit::{Vec, vec};
use crate::proved::control_wire::{Icmpv4Repr, Icmpv6Repr, TcpControl, TcpRepr, TcpSeqNumber, UdpRepr};
use crate::proved::drill_lines::fields::{Carried, Fields, PAYLOAD};
use crate::proved::drill_lines::places::bytes_of_hex;
use crate::proved::ip_wire::{IpEndpoint, IpProtocol, IpRepr};
use crate::proved::smoltcp_socket::{Context, Socket, icmp, raw, tcp, udp};
use crate::proved::socket_script::clock::Clock;
use crate::proved::socket_script::line::Line;
use crate::proved::socket_script::outbox::Host;
use crate::proved::socket_script::packet::{Kind, Packet, header};
use crate::proved::socket_script::seat::{Now, Seat};

/// A packet that is written by hand comes to the socket.
pub fn take(seat: &mut Seat<'_>, alloc: Global, now: Now, fields: &Fields<'_>, line: &mut Line) {
    match carried(alloc, fields) {
        Ok(payload) => take_bytes(seat, alloc, now, fields, payload, line),
        Err(_) => line.cut(),
    }
}

fn take_bytes(
    seat: &mut Seat<'_>,
    alloc: Global,
    now: Now,
    fields: &Fields<'_>,
    payload: Vec<u8>,
    line: &mut Line,
) {
    let from = fields.from.unwrap_or(seat.peer);
    let to = fields.to.unwrap_or(seat.here);
    match packet_of(&seat.socket, fields, from, to, payload) {
        None => line.say("malformed"),
        Some(packet) => {
            hear(seat, alloc, now, &packet, line);
            seat.came = Some(packet);
        }
    }
}

// The bytes that it carries.
fn carried(alloc: Global, fields: &Fields<'_>) -> Result<Vec<u8>, AllocError> {
    match fields.carried {
        Carried::Unnamed => vec![in alloc; b'x'; fields.len.unwrap_or(0).min(PAYLOAD)],
        Carried::Text(text) => Vec::from_slice(alloc, text),
        Carried::Hex(digits) => bytes_of_hex(alloc, digits),
    }
}

// The packet, as one for this kind of socket; none where its ends are of two versions.
fn packet_of(
    socket: &Socket<'_, Clock>,
    fields: &Fields<'_>,
    from: IpEndpoint,
    to: IpEndpoint,
    payload: Vec<u8>,
) -> Option<Packet> {
    let (kind, protocol, header_len) = match socket {
        Socket::Tcp(_) => {
            let repr = segment(fields, from.port, to.port);
            (Kind::Tcp(repr), IpProtocol::Tcp, repr.header_len())
        }
        Socket::Udp(_) => (Kind::Udp(ports(from, to)), IpProtocol::Udp, 8),
        Socket::Icmp(_) => (Kind::Icmp, icmp_protocol(to), 0),
        Socket::Raw(_) => (Kind::Raw, raw_protocol(fields), 0),
    };
    let len = header_len.saturating_add(payload.len());
    let ip = header(from.addr, to.addr, protocol, len, fields.hop)?;
    Some(Packet { ip, kind, payload })
}

fn ports(from: IpEndpoint, to: IpEndpoint) -> UdpRepr {
    UdpRepr { src_port: from.port, dst_port: to.port }
}

fn icmp_protocol(to: IpEndpoint) -> IpProtocol {
    match to.addr {
        crate::proved::ip_wire::IpAddress::Ipv4(_) => IpProtocol::Icmp,
        crate::proved::ip_wire::IpAddress::Ipv6(_) => IpProtocol::Icmpv6,
    }
}

// 255 where none is named.
fn raw_protocol(fields: &Fields<'_>) -> IpProtocol {
    IpProtocol::from(fields.protocol.unwrap_or(255))
}

fn segment(fields: &Fields<'_>, src_port: u16, dst_port: u16) -> TcpRepr<'static> {
    TcpRepr {
        src_port,
        dst_port,
        control: fields.control.unwrap_or(TcpControl::None),
        seq_number: TcpSeqNumber(fields.seq),
        ack_number: fields.ack,
        window_len: fields.win,
        window_scale: fields.scale,
        max_seg_size: fields.mss,
        sack_permitted: fields.sack,
        sack_ranges: fields.ranges,
        timestamp: fields.timestamp,
        payload: &[],
    }
}

/// A packet comes to the socket, and what came of it is written.
pub fn hear(seat: &mut Seat<'_>, alloc: Global, now: Now, packet: &Packet, line: &mut Line) {
    let mut host = seat.host(alloc, now, false);
    let heard = heard_by(&mut seat.socket, &mut host, packet);
    line.say(match heard.end {
        End::Delivered => "delivered",
        End::NotAccepted => "not-accepted",
        End::Malformed => "malformed",
    });
    if let Some((ip, reply)) = heard.reply {
        line.say(" reply ");
        match Packet::of_segment(alloc, ip, &reply) {
            Ok(packet) => seat.keep(packet, line),
            Err(_) => line.cut(),
        }
    }
}

// What becomes of a packet.
#[derive(Clone, Copy)]
enum End {
    Delivered,
    NotAccepted,
    Malformed,
}

// What became of a packet, and the segment that answers it.
#[derive(Clone, Copy)]
struct Heard {
    end: End,
    reply: Option<tcp::Reply>,
}

fn without_reply(is_taken: bool) -> Heard {
    Heard { end: if is_taken { End::Delivered } else { End::NotAccepted }, reply: None }
}

fn heard_by(socket: &mut Socket<'_, Clock>, host: &mut Host, packet: &Packet) -> Heard {
    let (ip, payload) = (&packet.ip, packet.payload.as_slice());
    match (socket, &packet.kind) {
        (Socket::Tcp(socket), Kind::Tcp(header)) => {
            let repr = header.with_payload(payload);
            hear_segment(socket, host, ip, &repr)
        }
        (Socket::Udp(socket), Kind::Udp(repr)) => {
            without_reply(hear_datagram(socket, host, ip, repr, payload))
        }
        (Socket::Icmp(socket), Kind::Icmp) => hear_message(socket, host, ip, payload),
        (Socket::Raw(socket), Kind::Raw) => without_reply(hear_packet(socket, host, ip, payload)),
        _ => without_reply(false),
    }
}

// Whether the socket takes a datagram.
fn hear_datagram(
    socket: &mut udp::Socket<'_>,
    host: &mut Host,
    ip: &IpRepr,
    repr: &UdpRepr,
    payload: &[u8],
) -> bool {
    let is_taken = socket.accepts(host, ip, repr);
    if is_taken {
        socket.process(host, ip, repr, payload);
    }
    is_taken
}

// Whether the socket takes a packet of its protocol.
fn hear_packet(socket: &mut raw::Socket<'_>, host: &mut Host, ip: &IpRepr, payload: &[u8]) -> bool {
    let is_taken = socket.accepts(ip);
    if is_taken {
        socket.process(host, ip, payload);
    }
    is_taken
}

// A segment that is refused is answered by an RST, unless it is one.
fn hear_segment(
    socket: &mut tcp::Socket<'_, Clock>,
    host: &mut Host,
    ip: &IpRepr,
    repr: &TcpRepr<'_>,
) -> Heard {
    if repr.payload.len() > PAYLOAD {
        return without_reply(false);
    }
    if socket.accepts(host, ip, repr) {
        return Heard { end: End::Delivered, reply: socket.process(host, ip, repr) };
    }
    if repr.control == TcpControl::Rst {
        return without_reply(false);
    }
    Heard { end: End::NotAccepted, reply: Some(tcp::Socket::rst_reply(ip, repr)) }
}

fn hear_message(socket: &mut icmp::Socket<'_>, host: &mut Host, ip: &IpRepr, bytes: &[u8]) -> Heard {
    let caps = host.checksum_caps();
    match ip {
        IpRepr::Ipv4(ip) => match Icmpv4Repr::parse(bytes, &caps) {
            Ok(repr) => {
                let is_taken = socket.accepts_v4(host, ip, &repr);
                if is_taken {
                    socket.process_v4(host, ip, &repr);
                }
                without_reply(is_taken)
            }
            Err(_) => MALFORMED,
        },
        IpRepr::Ipv6(ip) => match Icmpv6Repr::parse(&ip.src_addr, &ip.dst_addr, bytes, &caps) {
            Ok(repr) => {
                let is_taken = socket.accepts_v6(host, ip, &repr);
                if is_taken {
                    socket.process_v6(host, ip, &repr);
                }
                without_reply(is_taken)
            }
            Err(_) => MALFORMED,
        },
    }
}

const MALFORMED: Heard = Heard { end: End::Malformed, reply: None };
