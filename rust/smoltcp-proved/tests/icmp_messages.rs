//! ICMP messages as values: bytes of RFC 792 and RFC 4443, and what a socket's own checksums say of them.
mod common;
use common::*;
use smoltcp_proved::icmp;
use smoltcp_proved::wire::{
    ChecksumCapabilities, Error, Icmpv4DstUnreachable, Icmpv4Repr, Icmpv4TimeExceeded, Icmpv6DstUnreachable,
    Icmpv6Packet, Icmpv6ParamProblem, Icmpv6Repr, Icmpv6TimeExceeded, IpAddress, IpProtocol, Ipv4Address,
    Ipv4Repr, Ipv6Address, Ipv6Packet, Ipv6Repr,
};

/// A request whose checksum was worked out by hand: the sum of its words is 0x7101.
const ECHO: [u8; 12] = [0x08, 0x00, 0x8e, 0xfe, 0x12, 0x34, 0xab, 0xcd, 0xaa, 0x00, 0x00, 0xff];

const A4: Ipv4Address = Ipv4Address::new(10, 0, 0, 1);
const B4: Ipv4Address = Ipv4Address::new(10, 0, 0, 2);
const A6: Ipv6Address = Ipv6Address::new(0xfd00, 0, 0, 0, 0, 0, 0, 1);
const B6: Ipv6Address = Ipv6Address::new(0xfd00, 0, 0, 0, 0, 0, 0, 2);

/// The header of a datagram from a to b, of which eight bytes are quoted.
fn header_v4() -> Ipv4Repr {
    Ipv4Repr { src_addr: A4, dst_addr: B4, next_header: IpProtocol::Udp, payload_len: 8, hop_limit: 64 }
}

fn header_v6() -> Ipv6Repr {
    Ipv6Repr { src_addr: A6, dst_addr: B6, next_header: IpProtocol::Udp, payload_len: 8, hop_limit: 64 }
}

const QUOTED: [u8; 8] = [0xc0, 0x00, 0, 53, 0, 8, 0, 0];

/// Over IPv6 a datagram has a checksum (RFC 8200, section 8.1): the sum without it is 0xba5b.
const QUOTED_V6: [u8; 8] = [0xc0, 0x00, 0, 53, 0, 8, 0x45, 0xa4];

fn messages_v4() -> [Icmpv4Repr<'static>; 4] {
    let header = header_v4();
    [
        Icmpv4Repr::EchoRequest { ident: 0x1234, seq_no: 0xabcd, data: &[0xaa, 0, 0, 0xff] },
        Icmpv4Repr::EchoReply { ident: 0xffff, seq_no: 0, data: b"odd" },
        Icmpv4Repr::DstUnreachable { reason: Icmpv4DstUnreachable::PortUnreachable, header, data: &QUOTED },
        Icmpv4Repr::TimeExceeded { reason: Icmpv4TimeExceeded::TtlExpired, header, data: &QUOTED },
    ]
}

fn messages_v6() -> [Icmpv6Repr<'static>; 6] {
    let (header, data) = (header_v6(), &QUOTED_V6);
    [
        Icmpv6Repr::EchoRequest { ident: 7, seq_no: 1, data: b"ping" },
        Icmpv6Repr::EchoReply { ident: 7, seq_no: 1, data: b"" },
        Icmpv6Repr::DstUnreachable { reason: Icmpv6DstUnreachable::NoRoute, header, data },
        Icmpv6Repr::PktTooBig { mtu: 0x0001_0500, header, data },
        Icmpv6Repr::TimeExceeded { reason: Icmpv6TimeExceeded::FragReassemExceeded, header, data },
        Icmpv6Repr::ParamProblem {
            reason: Icmpv6ParamProblem::UnrecognizedNxtHdr,
            pointer: 40,
            header,
            data,
        },
    ]
}

fn bytes_v4(message: &Icmpv4Repr) -> Vec<u8> {
    let mut bytes = vec![0xee; message.buffer_len() + 3];
    put_message(message, &mut bytes);
    assert_eq!(bytes.split_off(message.buffer_len()), [0xee; 3]); // what stands behind is as it was
    bytes
}

fn put_v6(message: &Icmpv6Repr, src: &Ipv6Address, dst: &Ipv6Address, bytes: &mut [u8]) {
    let bytes = &mut bytes[..message.buffer_len()];
    message.emit(src, dst, &mut Icmpv6Packet::new_unchecked(bytes), &caps());
}

fn put_unsummed(message: &Icmpv6Repr, bytes: &mut [u8]) {
    let bytes = &mut bytes[..message.buffer_len()];
    message.emit(&A6, &B6, &mut Icmpv6Packet::new_unchecked(bytes), &ignored());
}

fn ignored() -> ChecksumCapabilities {
    ChecksumCapabilities::ignored()
}

fn unsummed_v4(bytes: &[u8]) -> Result<Icmpv4Repr<'_>, Error> {
    message_in(bytes, &ignored())
}

fn summed_v6<'a>(src: &Ipv6Address, dst: &Ipv6Address, bytes: &'a [u8]) -> Result<Icmpv6Repr<'a>, Error> {
    Icmpv6Repr::parse(src, dst, &Icmpv6Packet::new_checked(bytes)?, &caps())
}

fn unsummed_v6(bytes: &[u8]) -> Result<Icmpv6Repr<'_>, Error> {
    Icmpv6Repr::parse(&A6, &B6, &Icmpv6Packet::new_checked(bytes)?, &ignored())
}

fn bytes_v6(message: &Icmpv6Repr) -> Vec<u8> {
    let mut bytes = vec![0xee; message.buffer_len()];
    put_v6(message, &A6, &B6, &mut bytes);
    bytes
}

#[test]
fn an_echo_of_ipv4() {
    let [request, ..] = messages_v4();
    assert_eq!(bytes_v4(&request), ECHO);
    assert_eq!(message_in(&ECHO, &caps()), Ok(request));
}

/// RFC 792: type 3, code 3, four unused bytes, the header (its checksum: RFC 791) and eight bytes of what it led to.
#[test]
fn an_error_of_ipv4() {
    let [.., unreachable, exceeded] = messages_v4();
    let bytes = bytes_v4(&unreachable);
    assert_eq!(bytes[..2], [3, 3]);
    assert_eq!(bytes[4..8], [0; 4]);
    let header = [0x45, 0, 0, 28, 0, 0, 0x40, 0, 64, 17, 0x26, 0xcf, 10, 0, 0, 1, 10, 0, 0, 2];
    assert_eq!((&bytes[8..28], &bytes[28..]), (&header[..], &QUOTED[..]));
    assert_eq!(bytes_v4(&exceeded)[..2], [11, 0]);
}

/// RFC 4443: the types, the codes, and where MTU and pointer stand.
#[test]
fn errors_of_ipv6() {
    let starts: Vec<_> = messages_v6().iter().map(|message| bytes_v6(message)[..8].to_vec()).collect();
    let kinds: Vec<_> = starts.iter().map(|bytes| [bytes[0], bytes[1]]).collect();
    assert_eq!(kinds, [[128, 0], [129, 0], [1, 0], [2, 0], [3, 1], [4, 1]]);
    assert_eq!((&starts[3][4..], &starts[5][4..]), (&[0, 1, 5, 0][..], &[0, 0, 0, 40][..]));
}

#[test]
fn each_message_comes_back() {
    for message in messages_v4() {
        assert_eq!(message_in(&bytes_v4(&message), &caps()), Ok(message));
        assert_eq!(unsummed_v4(&bytes_v4(&message)), Ok(message));
    }
    for message in messages_v6() {
        let bytes = bytes_v6(&message);
        assert_eq!(summed_v6(&A6, &B6, &bytes), Ok(message));
        assert_eq!(summed_v6(&B6, &B6, &bytes), Err(Error)); // the checksum sums the addresses
        let mut unsummed = vec![0; bytes.len()];
        put_unsummed(&message, &mut unsummed);
        assert_eq!(
            (&unsummed[..2], &unsummed[2..4], &unsummed[4..]),
            (&bytes[..2], &[0; 2][..], &bytes[4..])
        );
        assert_eq!(unsummed_v6(&unsummed), Ok(message));
    }
}

/// Each length from none on, and each bit: an echo needs 8 bytes, an error a header and 8 behind it.
#[test]
fn each_length_and_each_bit() {
    for message in messages_v4() {
        let bytes = bytes_v4(&message);
        let is_echo = matches!(message, Icmpv4Repr::EchoRequest { .. } | Icmpv4Repr::EchoReply { .. });
        let least = if is_echo { 8 } else { 8 + 20 + 8 };
        for len in 0..bytes.len() {
            assert_eq!(unsummed_v4(&bytes[..len]).is_ok(), len >= least, "{message:?} {len}");
        }
        for bit in 0..8 * bytes.len() {
            let mut other = bytes.clone();
            other[bit / 8] ^= 1 << (bit % 8);
            assert_eq!(message_in(&other, &caps()), Err(Error), "{message:?} {bit}");
        }
    }
    for message in messages_v6() {
        let bytes = bytes_v6(&message);
        let is_echo = matches!(message, Icmpv6Repr::EchoRequest { .. } | Icmpv6Repr::EchoReply { .. });
        let least = if is_echo { 8 } else { 8 + 40 + 8 };
        for len in 0..bytes.len() {
            assert_eq!(unsummed_v6(&bytes[..len]).is_ok(), len >= least, "{message:?} {len}");
        }
        for bit in 0..8 * bytes.len() {
            let mut other = bytes.clone();
            other[bit / 8] ^= 1 << (bit % 8);
            assert_eq!(summed_v6(&A6, &B6, &other), Err(Error), "{message:?} {bit}");
        }
    }
}

/// Other types, echoes with a code, and headers that are quoted of another version or too short a length.
#[test]
fn what_is_no_message() {
    for (kind, code) in [(8, 1), (0, 3), (5, 0), (13, 0), (128, 0)] {
        assert_eq!(unsummed_v4(&[&[kind, code][..], &[0; 62]].concat()), Err(Error));
    }
    for (kind, code) in [(128, 1), (129, 2), (135, 0), (8, 0)] {
        assert_eq!(unsummed_v6(&[&[kind, code][..], &[0x60; 62]].concat()), Err(Error));
    }
    let [.., exceeded] = messages_v4();
    for first in [0x44, 0x65, 0x4f] {
        let mut bytes = bytes_v4(&exceeded);
        bytes[8] = first;
        assert_eq!(unsummed_v4(&bytes), Err(Error));
    }
    // options are behind the header: eight bytes have to stand behind them too
    let mut bytes = bytes_v4(&exceeded);
    bytes[8] = 0x46;
    assert_eq!(unsummed_v4(&bytes), Err(Error));
    bytes.extend([0; 4]);
    let Ok(Icmpv4Repr::TimeExceeded { header, data, .. }) = unsummed_v4(&bytes) else { panic!() };
    assert_eq!((header.payload_len, data), (8, &bytes[32..]));
}

#[test]
fn numbers_have_names() {
    assert_eq!(Icmpv4DstUnreachable::from(13), Icmpv4DstUnreachable::CommProhibited);
    assert_eq!(u8::from(Icmpv4DstUnreachable::Unknown(99)), 99);
    for number in 0..=255 {
        assert_eq!(u8::from(IpProtocol::from(number)), number);
        assert_eq!(u8::from(Icmpv6DstUnreachable::from(number)), number);
    }
    assert_eq!((IpProtocol::from(58), IpProtocol::Icmpv6.to_string()), (IpProtocol::Icmpv6, "ICMPv6".into()));
    assert_eq!(IpProtocol::Unknown(200).to_string(), "0xc8");
}

#[test]
#[should_panic]
fn too_few_bytes_to_write_to() {
    put_message(&messages_v4()[0], &mut [0; 11]);
}

/// A socket, which computes the checksums of what a socket sends and tests those of what it takes, has the same.
#[test]
fn as_sockets_have_them() {
    let mut cx = Told::new(0);
    cx.set_ipv4_addr(A4);
    cx.set_ipv6_addr(A6);
    let (mut places, mut bytes) = ([[icmp::PacketMetadata::EMPTY; 9]; 2], [[0; 999]; 2]);
    let ([p, q], [r, s]) = (&mut places, &mut bytes);
    let (rx, tx) = (icmp::PacketBuffer::new(p, r), icmp::PacketBuffer::new(q, s));
    let mut socket = icmp::Socket::new(rx, tx);
    socket.bind(icmp::Endpoint::Udp(0xc000.into())).expect("a closed socket opens");
    let mut packet = [0; 1500];
    for message in messages_v4() {
        socket.send_slice(&bytes_v4(&message), IpAddress::Ipv4(B4)).expect("room");
        let len = socket.emit(&cx, &mut packet).expect("room").expect("a packet");
        assert_eq!(message_in(&packet[20..len], &caps()), Ok(message));
        let (header, data) = header_in(&packet[..len]).expect("a packet of IPv4");
        assert_eq!((header.src_addr, header.dst_addr, header.next_header), (A4, B4, IpProtocol::Icmp));
        assert_eq!((header.hop_limit, header.payload_len, data.len()), (64, message.buffer_len(), len - 20));
        let mut written = [0; 20];
        put_header(&header, &mut written);
        assert_eq!(written, packet[..20]);
    }
    for message in messages_v6() {
        let mut bytes = vec![0; message.buffer_len()];
        put_unsummed(&message, &mut bytes);
        socket.send_slice(&bytes, IpAddress::Ipv6(B6)).expect("room");
        let sent = socket.emit(&cx, &mut packet).expect("room");
        if let Icmpv6Repr::PktTooBig { .. } = message {
            assert_eq!(sent, None); // a socket drops it
            continue;
        }
        let len = sent.expect("a packet");
        assert_eq!(summed_v6(&A6, &B6, &packet[40..len]), Ok(message));
        let header = Ipv6Packet::new_checked(&packet[..len]).and_then(|packet| Ipv6Repr::parse(&packet));
        let mut written = [0; 40];
        header.expect("a packet of IPv6").emit(&mut Ipv6Packet::new_unchecked(&mut written));
        assert_eq!(written, packet[..40]);
    }
    // a router's error about the datagram of port 0xc000, which the socket takes, and gives as it came
    let [_, _, error, _] = messages_v4();
    let header = Ipv4Repr { next_header: IpProtocol::Icmp, payload_len: error.buffer_len(), ..header_v4() };
    let header = Ipv4Repr { src_addr: B4, dst_addr: A4, ..header };
    let len = 20 + error.buffer_len();
    put_header(&header, &mut packet);
    put_message(&error, &mut packet[20..]);
    assert_eq!(socket.take(&cx, &packet[..len]), Ok(()));
    let mut bytes = [0; 100];
    let (len, from) = socket.recv_slice(&mut bytes).expect("a message");
    assert_eq!((message_in(&bytes[..len], &caps()), from), (Ok(error), IpAddress::Ipv4(B4)));
    // and over IPv6, where a wrong checksum is not taken
    let [_, _, error, ..] = messages_v6();
    let len = 40 + error.buffer_len();
    let (next_header, payload_len) = (IpProtocol::Icmpv6, error.buffer_len());
    let header = Ipv6Repr { src_addr: B6, dst_addr: A6, next_header, payload_len, hop_limit: 64 };
    header.emit(&mut Ipv6Packet::new_unchecked(&mut packet));
    put_unsummed(&error, &mut packet[40..]);
    assert_eq!(socket.take(&cx, &packet[..len]), Err(NotAccepted));
    put_v6(&error, &B6, &A6, &mut packet[40..]);
    assert_eq!(socket.take(&cx, &packet[..len]), Ok(()));
    let (len, from) = socket.recv_slice(&mut bytes).expect("a message");
    assert_eq!((unsummed_v6(&bytes[..len]), from), (Ok(error), IpAddress::Ipv6(B6)));
}
