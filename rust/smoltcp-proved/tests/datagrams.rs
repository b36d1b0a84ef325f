//! Worked examples of UDP and ICMP that bytes can show.
mod common;
use common::*;
use smoltcp_proved::udp::{BindError, RecvError, UdpMetadata};
use smoltcp_proved::wire::Ipv6Address;
use smoltcp_proved::wire::{IpAddress, IpEndpoint, IpProtocol, IpVersion};
use smoltcp_proved::{PollAt, icmp, raw, udp};

/// Memory for a UDP socket with two places and 100 bytes each way.
struct Room {
    places: [[udp::PacketMetadata; 2]; 2],
    bytes: [[u8; 100]; 2],
}

impl Room {
    fn new() -> Room {
        let places = [[udp::PacketMetadata::EMPTY; 2]; 2];
        Room { places, bytes: [[0; 100]; 2] }
    }

    fn socket(&mut self) -> udp::Socket<'_> {
        let ([rx_places, tx_places], [rx, tx]) = (&mut self.places, &mut self.bytes);
        let (rx, tx) = (udp::PacketBuffer::new(rx_places, rx), udp::PacketBuffer::new(tx_places, tx));
        udp::Socket::new(rx, tx)
    }
}

/// A packet that a UDP socket of a sends to port 53 of b, with these bytes.
fn datagram(bytes: &[u8]) -> Vec<u8> {
    let (mut room, cx) = (Room::new(), context(1, 0));
    let mut socket = room.socket();
    assert_eq!(socket.send_slice(bytes, (B, 53)), Err(udp::SendError::Unaddressable));
    socket.bind(49152).expect("a closed socket opens");
    assert_eq!(socket.bind(49152), Err(BindError::InvalidState));
    assert_eq!(socket.poll_at(&cx), PollAt::Ingress);
    socket.send_slice(bytes, (B, 53)).expect("room for a datagram");
    assert_eq!((socket.poll_at(&cx), socket.send_queue()), (PollAt::Now, bytes.len()));
    let mut packet = vec![0; 100];
    assert_eq!(socket.emit(&cx, &mut packet[..27]), Err(TooShort));
    let len = socket.emit(&cx, &mut packet).expect("room").expect("a packet");
    assert_eq!(socket.emit(&cx, &mut [0; 100]), Ok(None));
    packet.truncate(len);
    packet
}

#[test]
fn udp_and_truncation() {
    let (mut room, cx) = (Room::new(), context(2, 0));
    let mut server = room.socket();
    assert_eq!(server.bind(0), Err(BindError::Unaddressable));
    server.bind(53).expect("a closed socket opens");
    assert_eq!((server.packet_recv_capacity(), server.payload_send_capacity()), (2, 100));
    let packet = datagram(b"which address?");
    assert_eq!(packet.len(), 20 + 8 + 14);
    assert_eq!(packet[20..28][..6], [0xc0, 0x00, 0, 53, 0, 22]);
    let mut damaged = packet.clone();
    damaged[30] ^= 1;
    assert_eq!(server.take(&cx, &damaged), Err(NotAccepted));
    for _ in 0..3 {
        assert_eq!(server.take(&cx, &packet), Ok(())); // the third finds no place, and is dropped
    }
    assert_eq!(server.recv_queue(), 2 * 14);
    let mut bytes = [0; 14];
    assert_eq!(server.recv_slice(&mut bytes[..13]), Err(RecvError::Truncated));
    let mut from = UdpMetadata::from(IpEndpoint::new(A, 49152));
    from.local_address = Some(B);
    assert_eq!(server.peek_slice(&mut bytes), Ok((14, &from)));
    assert_eq!(server.recv_slice(&mut bytes), Ok((14, from)));
    assert_eq!(&bytes, b"which address?");
    assert_eq!(server.recv_slice(&mut bytes), Err(RecvError::Exhausted));
    assert_eq!(server.send_slice(&[0; 101], from), Err(udp::SendError::BufferFull));
    let meta = UdpMetadata { local_address: Some(IpAddress::v4(10, 0, 0, 9)), ..from };
    server.set_hop_limit(Some(3));
    assert_eq!((server.send_slice(b"10.0.0.3", meta), server.hop_limit()), (Ok(()), Some(3)));
    let mut answer = [0; 100];
    assert_eq!(server.emit(&cx, &mut answer), Ok(Some(20 + 8 + 8)));
    assert_eq!((answer[8], &answer[12..20]), (3, &[10, 0, 0, 9, 10, 0, 0, 1][..]));
    assert_eq!(server.send_slice(b"10.0.0.3", from), Ok(()));
    server.close();
    assert_eq!((server.is_open(), server.emit(&cx, &mut [0; 100])), (false, Ok(None)));
}

/// Nothing goes out from an address that was never set: what would have none leaves the queue, and the next is sent.
#[test]
fn no_source() {
    let (mut room, mut icmp_room) = (Room::new(), IcmpRoom::new());
    let (mut socket, mut pinger) = (room.socket(), icmp_room.socket());
    let mut cx = context(1, 0);
    let over_ipv6 = IpAddress::Ipv6(Ipv6Address::LOCALHOST);
    socket.bind(49152).expect("a closed socket opens");
    socket.send_slice(b"", (over_ipv6, 53)).expect("room for a datagram");
    socket.send_slice(b"seen", (B, 53)).expect("room for a datagram");
    let mut out = [0; 100];
    assert_eq!(socket.emit(&cx, &mut out), Ok(None));
    assert_eq!(socket.emit(&cx, &mut out), Ok(Some(20 + 8 + 4)));
    assert_eq!(socket.emit(&cx, &mut out), Ok(None));
    // one that is given is a source, whatever the context has
    let mut meta = UdpMetadata::from(IpEndpoint::new(over_ipv6, 53));
    meta.local_address = Some(over_ipv6);
    socket.send_slice(b"seen", meta).expect("room for a datagram");
    assert_eq!(socket.emit(&cx, &mut out), Ok(Some(40 + 8 + 4)));

    let request = [128, 0, 0, 0, 0, 7, 0, 1];
    pinger.send_slice(&request, over_ipv6).expect("room for a message");
    cx.set_ipv4_addr([0; 4].into());
    cx.set_ipv6_addr(Ipv6Address::LOCALHOST);
    assert_eq!(pinger.emit(&cx, &mut out), Ok(Some(40 + 8)));
    pinger.send_slice(&[8, 0, 0, 0, 0, 7, 0, 1], B).expect("room for a message");
    assert_eq!(pinger.emit(&cx, &mut out), Ok(None));
    socket.send_slice(b"", (B, 53)).expect("room for a datagram");
    assert_eq!(socket.emit(&cx, &mut out), Ok(None));
}

/// A raw socket takes the packet of a datagram, and sends it on.
#[test]
fn raw_packets() {
    let packet = datagram(b"which address?");
    let (mut places, mut bytes) = ([[raw::PacketMetadata::EMPTY; 2]; 2], [[0; 100]; 2]);
    let (cx, [rx_places, tx_places], [rx, tx]) = (context(2, 0), &mut places, &mut bytes);
    let (rx, tx) = (raw::PacketBuffer::new(rx_places, rx), raw::PacketBuffer::new(tx_places, tx));
    let mut socket = raw::Socket::new(Some(IpVersion::Ipv4), Some(IpProtocol::Udp), rx, tx);
    assert_eq!((socket.ip_version(), socket.ip_protocol()), (Some(IpVersion::Ipv4), Some(IpProtocol::Udp)));
    assert_eq!((socket.packet_recv_capacity(), socket.payload_send_capacity()), (2, 100));
    let mut other = packet.clone();
    other[9] = 1; // another protocol, with the checksum 16 more
    other[11] = other[11].wrapping_add(16);
    assert_eq!(socket.take(&cx, &other), Err(NotAccepted));
    assert_eq!((socket.take(&cx, &packet), socket.recv_queue()), (Ok(()), packet.len()));
    let mut out = [0; 100];
    assert_eq!(socket.peek_slice(&mut out[..1]), Err(RecvError::Truncated));
    assert_eq!((socket.recv_slice(&mut out), &out[..packet.len()]), (Ok(packet.len()), &packet[..]));
    assert_eq!(socket.recv_slice(&mut out), Err(RecvError::Exhausted));
    assert_eq!(socket.send_slice(&[0; 101]), Err(raw::SendError::BufferFull));
    assert_eq!((socket.send_slice(&packet), socket.poll_at(&cx)), (Ok(()), PollAt::Now));
    assert_eq!(socket.emit(&cx, &mut out[..9]), Err(TooShort));
    assert_eq!((socket.emit(&cx, &mut out), &out[..packet.len()]), (Ok(Some(packet.len())), &packet[..]));
    assert_eq!(socket.poll_at(&cx), PollAt::Ingress);
}

/// Memory for an ICMP socket with two places and 200 bytes each way.
struct IcmpRoom {
    places: [[icmp::PacketMetadata; 2]; 2],
    bytes: [[u8; 200]; 2],
}

impl IcmpRoom {
    fn new() -> IcmpRoom {
        let places = [[icmp::PacketMetadata::EMPTY; 2]; 2];
        IcmpRoom { places, bytes: [[0; 200]; 2] }
    }

    fn socket(&mut self) -> icmp::Socket<'_> {
        let ([rx_places, tx_places], [rx, tx]) = (&mut self.places, &mut self.bytes);
        let (rx, tx) = (icmp::PacketBuffer::new(rx_places, rx), icmp::PacketBuffer::new(tx_places, tx));
        icmp::Socket::new(rx, tx)
    }
}

/// RFC 792: an echo request with identifier 7 and number 1, and its reply.
#[test]
fn icmp_echo() {
    let request = [8, 0, 0, 0, 0, 7, 0, 1, b'p', b'i', b'n', b'g'];
    let (mut room, of_a) = (IcmpRoom::new(), context(1, 0));
    let mut pinger = room.socket();
    assert_eq!(pinger.bind(icmp::Endpoint::Unspecified), Err(BindError::Unaddressable));
    pinger.bind(icmp::Endpoint::Ident(7)).expect("a closed socket opens");
    assert_eq!(pinger.bind(icmp::Endpoint::Ident(7)), Err(BindError::InvalidState));
    assert_eq!((pinger.packet_recv_capacity(), pinger.payload_send_capacity()), (2, 200));
    assert_eq!(pinger.send_slice(&request, IpAddress::v4(0, 0, 0, 0)), Err(icmp::SendError::Unaddressable));
    assert_eq!(pinger.send_slice(&[0; 201], B), Err(icmp::SendError::BufferFull));
    let mut packet = [0; 100];
    assert_eq!(pinger.send_slice(&request[..3], B), Ok(())); // no message, so that dispatch drops it
    assert_eq!(pinger.emit(&of_a, &mut packet), Ok(None));
    assert_eq!(pinger.poll_at(&of_a), PollAt::Ingress);
    pinger.send_slice(&request, B).expect("room for a message");
    assert_eq!((pinger.poll_at(&of_a), pinger.send_queue()), (PollAt::Now, 12));
    assert_eq!(pinger.emit(&of_a, &mut packet[..31]), Err(TooShort));
    assert_eq!(pinger.emit(&of_a, &mut packet), Ok(Some(32)));
    assert_eq!((packet[9], packet[20], packet[32 - 4..32].as_ref()), (1, 8, &b"ping"[..]));
    // The reply is the request with the addresses exchanged and the kind 0: its checksum is 0x0800 more.
    packet[12..20].rotate_left(4);
    packet[20] = 0;
    let sum = u32::from(u16::from_be_bytes([packet[22], packet[23]])) + 0x0800;
    packet[22..24].copy_from_slice(&((sum & 0xffff) as u16 + (sum >> 16) as u16).to_be_bytes());
    assert_eq!(pinger.take(&of_a, &packet[..31]), Err(NotAccepted));
    for _ in 0..3 {
        assert_eq!(pinger.take(&of_a, &packet[..32]), Ok(())); // the third finds no place, and is dropped
    }
    assert_eq!(pinger.recv_queue(), 2 * 12);
    let mut message = [0; 64];
    for _ in 0..2 {
        assert_eq!(pinger.recv_slice(&mut message), Ok((12, B)));
        assert_eq!((message[0], &message[4..12]), (0, &request[4..]));
    }
    assert_eq!(pinger.recv_slice(&mut message), Err(icmp::RecvError::Exhausted));
}

/// RFC 792: an unreachable port, about a datagram and about a segment of port 49152. Each is for one socket. The whole
/// packet is quoted: a part of it is not enough, as in smoltcp.
#[test]
fn icmp_errors() {
    let of_udp = datagram(b"which address?");
    let (mut rx, mut tx) = ([0; 9], [0; 9]);
    let mut host = Host { socket: socket(&mut rx, &mut tx), cx: context(1, 0) };
    host.socket.connect(&mut host.cx, (B, 53), 49152).expect("a closed socket connects");
    let of_tcp = host.emit().expect("a SYN");
    let sources = [icmp::Endpoint::Udp(49152.into()), icmp::Endpoint::Tcp(49152.into())];
    for (n, quoted) in [&of_udp, &of_tcp].into_iter().enumerate() {
        let (mut room, of_b) = (IcmpRoom::new(), context(2, 0));
        let mut router = room.socket();
        let message = [&[3, 3, 0, 0, 0, 0, 0, 0], &quoted[..]].concat();
        router.set_hop_limit(Some(9));
        router.send_slice(&message, A).expect("room for a message");
        let (mut packet, len) = ([0; 100], message.len());
        assert_eq!((router.emit(&of_b, &mut packet), router.hop_limit()), (Ok(Some(20 + len)), Some(9)));
        assert_eq!((packet[8], &packet[28..20 + len]), (9, &quoted[..]));
        for (k, source) in sources.into_iter().enumerate() {
            let mut room = IcmpRoom::new();
            let mut socket = room.socket();
            assert!(!socket.is_open());
            socket.bind(source).expect("a closed socket opens");
            assert!(socket.is_open());
            if k != n {
                assert_eq!(socket.take(&host.cx, &packet[..20 + len]), Err(NotAccepted));
                continue;
            }
            assert_eq!(socket.take(&host.cx, &packet[..20 + len]), Ok(()));
            assert_eq!(socket.take(&host.cx, &packet[..20 + len]), Ok(()));
            let mut bytes = [0; 100];
            assert_eq!(socket.recv_slice(&mut bytes[..len - 1]), Err(icmp::RecvError::Truncated));
            assert!(socket.can_recv());
            assert_eq!(socket.recv_slice(&mut bytes), Ok((len, B)));
            assert_eq!((&bytes[..2], &bytes[8..len]), (&message[..2], &message[8..]));
            assert!(!socket.can_recv() && socket.can_send());
        }
    }
}
