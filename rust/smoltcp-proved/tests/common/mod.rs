//! Two contexts, and packets between two sockets: what an interface does for its sockets, as bytes.
#![allow(dead_code)]
use smoltcp_proved::Context;
use smoltcp_proved::proved::control_wire::icmp::{Icmpv4Repr, Icmpv6Repr};
use smoltcp_proved::proved::segment_wire::packet::{carried, emit_tcp, emit_udp, parse_tcp, parse_udp};
use smoltcp_proved::socket::{PollAt, icmp, raw, tcp, udp};
use smoltcp_proved::time::{Duration, Instant};
use smoltcp_proved::wire::{
    self, ChecksumCapabilities, Error, IcmpRepr, Icmpv4Packet, IpAddress, IpProtocol, IpRepr, Ipv4Address,
    Ipv4Packet, Ipv4Repr, Ipv6Address, TcpRepr, UdpRepr,
};
use std::cell::Cell;

pub const A: IpAddress = IpAddress::v4(10, 0, 0, 1);
pub const B: IpAddress = IpAddress::v4(10, 0, 0, 2);
pub const START: Instant = Instant::ZERO;

/// What a test looks at in a packet over IPv4 without options.
pub const FIN: u8 = 0x01;
pub const SYN: u8 = 0x02;
pub const RST: u8 = 0x04;
pub const ACK: u8 = 0x10;

/// Room for any answer of a TCP socket.
pub const REPLY_LEN: usize = 100;

/// The packet is not for this socket, or not whole.
#[derive(Debug, Clone, Copy, PartialEq, Eq)]
pub struct NotAccepted;

/// The bytes given are too few for the packet that is due.
#[derive(Debug, Clone, Copy, PartialEq, Eq)]
pub struct TooShort;

thread_local! {
    static MILLIS: Cell<u32> = const { Cell::new(0) };
}

/// A clock of timestamps: the milliseconds of the context that was set last.
pub fn clock() -> u32 {
    MILLIS.get()
}

/// What sockets are told of a host: a moment, an address of each version, and numbers, each 1000 more than the one
/// before it.
#[derive(Debug, Clone)]
pub struct Told {
    now: Instant,
    v4: Option<Ipv4Address>,
    v6: Option<Ipv6Address>,
    word: u32,
}

impl Told {
    pub fn new(word: u32) -> Told {
        Told { now: START, v4: None, v6: None, word }
    }

    pub fn set_now(&mut self, now: Instant) {
        self.now = now;
        MILLIS.set(now.total_millis() as u32);
    }

    pub fn set_ipv4_addr(&mut self, addr: Ipv4Address) {
        self.v4 = (!addr.is_unspecified()).then_some(addr);
    }

    pub fn set_ipv6_addr(&mut self, addr: Ipv6Address) {
        self.v6 = (!addr.is_unspecified()).then_some(addr);
    }

    pub fn now(&self) -> Instant {
        self.now
    }
}

impl Context for Told {
    fn now(&self) -> Instant {
        self.now
    }
    fn has_ip_addr(&self, addr: IpAddress) -> bool {
        self.v4.is_some_and(|own| addr == own.into()) || self.v6.is_some_and(|own| addr == own.into())
    }
    fn get_source_address(&self, dst: &IpAddress) -> Option<IpAddress> {
        match dst {
            IpAddress::Ipv4(_) => self.v4.map(Into::into),
            IpAddress::Ipv6(_) => self.v6.map(Into::into),
        }
    }
    fn get_source_address_ipv4(&self, _: &Ipv4Address) -> Option<Ipv4Address> {
        self.v4
    }
    fn get_source_address_ipv6(&self, _: &Ipv6Address) -> Ipv6Address {
        self.v6.unwrap_or(Ipv6Address::UNSPECIFIED)
    }
    fn is_broadcast(&self, _: &IpAddress) -> bool {
        false
    }
    fn ip_mtu(&self) -> usize {
        1500
    }
    fn checksum_caps(&self) -> ChecksumCapabilities {
        ChecksumCapabilities::default()
    }
    fn rand_u32(&mut self) -> u32 {
        let word = self.word;
        self.word = word.wrapping_add(1000);
        word
    }
}

pub fn context(last: u8, word: u32) -> Told {
    let mut cx = Told::new(word);
    cx.set_ipv4_addr([10, 0, 0, last].into());
    cx
}

pub fn flags(packet: &[u8]) -> u8 {
    packet[20 + 13] & 0x17
}

fn word(packet: &[u8], at: usize) -> u32 {
    u32::from_be_bytes(packet[at..at + 4].try_into().expect("four bytes"))
}

pub fn number(packet: &[u8]) -> u32 {
    word(packet, 20 + 4)
}

pub fn acknowledged(packet: &[u8]) -> u32 {
    word(packet, 20 + 8)
}

pub fn window(packet: &[u8]) -> u16 {
    u16::from_be_bytes([packet[20 + 14], packet[20 + 15]])
}

pub fn payload(packet: &[u8]) -> &[u8] {
    &packet[20 + usize::from(packet[20 + 12] >> 4) * 4..]
}

/// All checksums are written and tested.
pub fn caps() -> ChecksumCapabilities {
    ChecksumCapabilities::default()
}

// Whether a packet with this header finds room.
fn room(ip: &IpRepr, out: &[u8]) -> Result<usize, TooShort> {
    let len = ip.header_len() + ip.payload_len();
    if out.len() < len { Err(TooShort) } else { Ok(len) }
}

/// The packet of a segment.
pub fn packet_of(ip: &IpRepr, repr: &TcpRepr<'_>, out: &mut [u8]) -> Result<usize, TooShort> {
    let len = room(ip, out)?;
    emit_tcp(ip, repr, &mut out[..len], &caps());
    Ok(len)
}

/// The RST that answers a segment which is for no socket, where one does.
pub fn reset(packet: &[u8], reply: &mut [u8]) -> Option<usize> {
    let (ip, repr) = parse_tcp(packet, &caps()).expect("a segment");
    if packet[ip.header_len() + 13] & RST != 0 {
        return None;
    }
    let (ip, repr) = tcp::Socket::rst_reply(&ip, &repr);
    Some(packet_of(&ip, &repr, reply).expect("room for an answer"))
}

/// The calls of each kind of socket, with packets as bytes: what is emitted, and what is heard.
pub trait OfBytes {
    /// Writes the packet that is due, and answers its length.
    fn emit(&mut self, cx: &Told, out: &mut [u8]) -> Result<Option<usize>, TooShort>;

    /// Takes a packet, and answers the length of what answers it.
    fn hear(&mut self, cx: &mut Told, packet: &[u8], reply: &mut [u8]) -> Result<Option<usize>, NotAccepted>;

    /// The same, where nothing answers.
    fn take(&mut self, cx: &Told, packet: &[u8]) -> Result<(), NotAccepted> {
        self.hear(&mut cx.clone(), packet, &mut [0; REPLY_LEN]).map(|_| ())
    }
}

impl OfBytes for tcp::Socket<'_> {
    fn emit(&mut self, cx: &Told, out: &mut [u8]) -> Result<Option<usize>, TooShort> {
        let mut sent = None;
        self.dispatch(&mut cx.clone(), |_: &mut Told, (ip, repr): (IpRepr, TcpRepr<'_>)| {
            sent = Some(packet_of(&ip, &repr, out)?);
            Ok(())
        })?;
        Ok(sent)
    }

    fn hear(&mut self, cx: &mut Told, packet: &[u8], reply: &mut [u8]) -> Result<Option<usize>, NotAccepted> {
        let (ip, repr) = parse_tcp(packet, &caps()).map_err(|_| NotAccepted)?;
        if !self.accepts(cx, &ip, &repr) {
            return Err(NotAccepted);
        }
        let answer = self.process(cx, &ip, &repr);
        Ok(answer.map(|(ip, repr)| packet_of(&ip, &repr, reply).expect("room for an answer")))
    }
}

impl OfBytes for udp::Socket<'_> {
    fn emit(&mut self, cx: &Told, out: &mut [u8]) -> Result<Option<usize>, TooShort> {
        let mut sent = None;
        self.dispatch(&mut cx.clone(), |_: &mut Told, (ip, repr, payload): (IpRepr, UdpRepr, &[u8])| {
            let len = room(&ip, out)?;
            emit_udp(&ip, &repr, payload, &mut out[..len], &caps());
            sent = Some(len);
            Ok(())
        })?;
        Ok(sent)
    }

    fn hear(&mut self, cx: &mut Told, packet: &[u8], _: &mut [u8]) -> Result<Option<usize>, NotAccepted> {
        let (ip, repr, payload) = parse_udp(packet, &caps()).map_err(|_| NotAccepted)?;
        if !self.accepts(cx, &ip, &repr) {
            return Err(NotAccepted);
        }
        self.process(cx, &ip, &repr, payload);
        Ok(None)
    }
}

impl OfBytes for icmp::Socket<'_> {
    fn emit(&mut self, cx: &Told, out: &mut [u8]) -> Result<Option<usize>, TooShort> {
        let mut sent = None;
        self.dispatch(&mut cx.clone(), |_: &mut Told, (ip, repr): (IpRepr, IcmpRepr<'_>)| {
            let len = room(&ip, out)?;
            ip.emit(out, &caps());
            let message = &mut out[ip.header_len()..len];
            match (&ip, repr) {
                (IpRepr::Ipv6(ip), IcmpRepr::Ipv6(repr)) => {
                    repr.emit(&ip.src_addr, &ip.dst_addr, message, &caps())
                }
                (_, IcmpRepr::Ipv4(repr)) => repr.emit(message, &caps()),
                _ => panic!("a message of another version"),
            }
            sent = Some(len);
            Ok(())
        })?;
        Ok(sent)
    }

    fn hear(&mut self, cx: &mut Told, packet: &[u8], _: &mut [u8]) -> Result<Option<usize>, NotAccepted> {
        let (ip, message) = carried(packet, &caps()).ok_or(NotAccepted)?;
        match ip {
            IpRepr::Ipv4(ip) if ip.next_header == IpProtocol::Icmp => {
                let repr = Icmpv4Repr::parse(message, &caps()).map_err(|_| NotAccepted)?;
                let accepts = self.accepts_v4(cx, &ip, &repr);
                accepts.then(|| self.process_v4(cx, &ip, &repr)).ok_or(NotAccepted)?;
            }
            IpRepr::Ipv6(ip) if ip.next_header == IpProtocol::Icmpv6 => {
                let repr = Icmpv6Repr::parse(&ip.src_addr, &ip.dst_addr, message, &caps());
                let repr = repr.map_err(|_| NotAccepted)?;
                let accepts = self.accepts_v6(cx, &ip, &repr);
                accepts.then(|| self.process_v6(cx, &ip, &repr)).ok_or(NotAccepted)?;
            }
            _ => return Err(NotAccepted),
        }
        Ok(None)
    }
}

impl OfBytes for raw::Socket<'_> {
    fn emit(&mut self, cx: &Told, out: &mut [u8]) -> Result<Option<usize>, TooShort> {
        let mut sent = None;
        self.dispatch(&mut cx.clone(), |_: &mut Told, (ip, payload): (IpRepr, &[u8])| {
            let len = room(&ip, out)?;
            ip.emit(out, &caps());
            out[ip.header_len()..len].copy_from_slice(payload);
            sent = Some(len);
            Ok(())
        })?;
        Ok(sent)
    }

    fn hear(&mut self, cx: &mut Told, packet: &[u8], _: &mut [u8]) -> Result<Option<usize>, NotAccepted> {
        let (ip, payload) = carried(packet, &caps()).ok_or(NotAccepted)?;
        if !self.accepts(&ip) {
            return Err(NotAccepted);
        }
        self.process(cx, &ip, payload);
        Ok(None)
    }
}

/// A TCP socket over these bytes.
pub fn socket<'a>(rx: &'a mut [u8], tx: &'a mut [u8]) -> tcp::Socket<'a> {
    tcp::Socket::new(tcp::SocketBuffer::new(rx), tcp::SocketBuffer::new(tx))
}

/// A socket with its context.
pub struct Host<'a> {
    pub socket: tcp::Socket<'a>,
    pub cx: Told,
}

impl Host<'_> {
    /// The packet that is due.
    pub fn emit(&mut self) -> Option<Vec<u8>> {
        let mut out = vec![0; 1500];
        let len = self.socket.emit(&self.cx, &mut out).expect("room for a packet")?;
        out.truncate(len);
        Some(out)
    }

    /// Takes a packet, and answers it.
    pub fn take(&mut self, packet: &[u8]) -> Option<Vec<u8>> {
        let mut reply = vec![0; REPLY_LEN];
        let len = self.socket.hear(&mut self.cx, packet, &mut reply).expect("a packet for the socket")?;
        reply.truncate(len);
        Some(reply)
    }

    /// Goes to the moment at which the socket wants its dispatch; answers how long it took.
    pub fn wait(&mut self) -> Duration {
        let was = self.cx.now();
        if let PollAt::Time(at) = self.socket.poll_at(&self.cx) {
            self.cx.set_now(at);
        }
        self.cx.now() - was
    }
}

/// Gives what each socket emits to the other, 10 ms later each time, until neither emits; at most a hundred times.
pub fn settle(a: &mut Host, b: &mut Host) {
    for _ in 0..100 {
        let now = a.cx.now().max(b.cx.now()) + Duration::from_millis(10);
        a.cx.set_now(now);
        b.cx.set_now(now);
        if carry(a, b) + carry(b, a) == 0 {
            return;
        }
    }
    panic!("the sockets do not come to rest");
}

/// Gives what one socket emits to the other, and the replies back. Answers how many packets were emitted.
pub fn carry(from: &mut Host, to: &mut Host) -> usize {
    for count in 0..64 {
        let Some(packet) = from.emit() else {
            return count;
        };
        if let Some(reply) = to.take(&packet) {
            assert_eq!(from.take(&reply), None);
        }
    }
    64
}

/// The header of a packet over IPv4, and what stands behind it.
pub fn header_in(packet: &[u8]) -> Result<(Ipv4Repr, &[u8]), Error> {
    let packet = Ipv4Packet::new_checked(packet)?;
    Ok((Ipv4Repr::parse(&packet, &caps())?, packet.payload()))
}

/// Writes a header of IPv4 to the beginning of these bytes.
pub fn put_header(repr: &Ipv4Repr, bytes: &mut [u8]) {
    repr.emit(&mut Ipv4Packet::new_unchecked(bytes), &caps());
}

/// The message over IPv4 that these bytes spell.
pub fn message_in<'a>(bytes: &'a [u8], caps: &ChecksumCapabilities) -> Result<wire::Icmpv4Repr<'a>, Error> {
    wire::Icmpv4Repr::parse(&Icmpv4Packet::new_checked(bytes)?, caps)
}

/// Writes a message over IPv4 to the beginning of these bytes.
pub fn put_message(repr: &wire::Icmpv4Repr<'_>, bytes: &mut [u8]) {
    let bytes = &mut bytes[..repr.buffer_len()];
    repr.emit(&mut Icmpv4Packet::new_unchecked(bytes), &caps());
}
