//! Sockets of the proved sources, as a program with an interface of its own uses them: packets pass as bytes.
use smoltcp_proved::proved::segment_wire::{packet, tcp as wire_tcp};
use smoltcp_proved::storage::{PacketBuffer, PacketMetadata, RingBuffer};
use smoltcp_proved::time::Instant;
use smoltcp_proved::wire::*;
use smoltcp_proved::{Context, PollAt, tcp, udp};

struct Layer {
    now: i64,
    addr: Ipv4Address,
    word: u32,
}

impl Context for Layer {
    fn now(&self) -> Instant {
        Instant::from_millis(self.now)
    }
    fn has_ip_addr(&self, addr: IpAddress) -> bool {
        addr == IpAddress::Ipv4(self.addr)
    }
    fn get_source_address(&self, dst: &IpAddress) -> Option<IpAddress> {
        matches!(dst, IpAddress::Ipv4(_)).then_some(IpAddress::Ipv4(self.addr))
    }
    fn get_source_address_ipv4(&self, _: &Ipv4Address) -> Option<Ipv4Address> {
        Some(self.addr)
    }
    fn get_source_address_ipv6(&self, _: &Ipv6Address) -> Ipv6Address {
        Ipv6Address::UNSPECIFIED
    }
    fn is_broadcast(&self, _: &IpAddress) -> bool {
        false
    }
    fn ip_mtu(&self) -> usize {
        1500
    }
    fn checksum_caps(&self) -> ChecksumCapabilities {
        ChecksumCapabilities::default()
    }
    fn rand_u32(&mut self) -> u32 {
        self.word += 1000;
        self.word
    }
}

fn layer(last: u8) -> Layer {
    Layer { now: 0, addr: Ipv4Address::new(10, 0, 0, last), word: 0 }
}

fn bytes_of(ip: &IpRepr, repr: &TcpRepr<'_>) -> Vec<u8> {
    let mut bytes = vec![0; ip.header_len() + ip.payload_len()];
    packet::emit_tcp(ip, repr, &mut bytes, &ChecksumCapabilities::default());
    bytes
}

fn emitted(cx: &mut Layer, socket: &mut tcp::Socket<'_>) -> Option<Vec<u8>> {
    let mut bytes = None;
    let Ok(()) = socket.dispatch(
        cx,
        |_: &mut Layer, (ip, repr): (IpRepr, TcpRepr<'_>)| -> core::result::Result<(), ()> {
            bytes = Some(bytes_of(&ip, &repr));
            Ok(())
        },
    ) else {
        return None;
    };
    bytes
}

fn taken(cx: &mut Layer, socket: &mut tcp::Socket<'_>, bytes: &[u8]) -> Option<Vec<u8>> {
    let caps = ChecksumCapabilities::default();
    let (ip, segment) = packet::carried(bytes, &caps).expect("an IP packet");
    let repr = wire_tcp::parse(segment, &ip.src_addr(), &ip.dst_addr(), &caps).expect("a segment");
    assert!(socket.accepts(cx, &ip, &repr));
    let reply = socket.process(cx, &ip, &repr);
    reply.map(|(ip, repr)| bytes_of(&ip, &repr))
}

fn pass(from: &mut (Layer, tcp::Socket<'_>), to: &mut (Layer, tcp::Socket<'_>)) {
    while let Some(bytes) = emitted(&mut from.0, &mut from.1) {
        if let Some(reply) = taken(&mut to.0, &mut to.1, &bytes) {
            taken(&mut from.0, &mut from.1, &reply);
        }
    }
}

#[test]
fn bytes_pass_between_two_sockets() {
    let mut rooms = [[0; 256]; 4];
    let [a, b, c, d] = &mut rooms;
    let mut client = (layer(1), tcp::Socket::closed(RingBuffer::new(a), RingBuffer::new(b), None));
    let mut server = (layer(2), tcp::Socket::closed(RingBuffer::new(c), RingBuffer::new(d), None));
    server.1.listen(IpListenEndpoint { addr: None, port: 80 }).expect("a closed socket listens");
    let remote = IpEndpoint { addr: IpAddress::Ipv4(Ipv4Address::new(10, 0, 0, 2)), port: 80 };
    let local = IpListenEndpoint { addr: None, port: 49152 };
    client.1.connect(&mut client.0, remote, local).expect("a closed socket connects");
    let (mut sent, mut got) = (0, Vec::new());
    for now in (0..1000).step_by(20) {
        (client.0.now, server.0.now) = (now, now);
        if client.1.may_send() && sent < 1000 {
            let piece: Vec<u8> = (sent..1000).map(|n| n as u8).collect();
            sent += client.1.send_slice(&piece).expect("an open socket sends");
        }
        pass(&mut client, &mut server);
        pass(&mut server, &mut client);
        if server.1.can_recv() {
            let mut piece = [0; 100];
            let count = server.1.recv_slice(&mut piece).expect("bytes are there");
            got.extend_from_slice(&piece[..count]);
        }
    }
    assert_eq!(got, (0..1000).map(|n| n as u8).collect::<Vec<u8>>());
    assert!(client.1.state() == tcp::State::Established && server.1.state() == tcp::State::Established);
}

#[test]
fn a_datagram_is_sent_as_it_was_queued() {
    let (mut rx_meta, mut tx_meta) = ([PacketMetadata::EMPTY; 2], [PacketMetadata::EMPTY; 2]);
    let (mut rx, mut tx) = ([0; 64], [0; 64]);
    let mut socket = udp::Socket::new(
        PacketBuffer::new(&mut rx_meta[..], &mut rx[..]),
        PacketBuffer::new(&mut tx_meta[..], &mut tx[..]),
    );
    let mut cx = layer(1);
    socket.bind(IpListenEndpoint { addr: None, port: 7 }).expect("a socket that is not bound");
    assert!(socket.poll_at(&cx) == PollAt::Ingress);
    let remote = IpEndpoint { addr: IpAddress::Ipv4(Ipv4Address::new(10, 0, 0, 2)), port: 53 };
    socket.send_slice(b"which name?", udp::UdpMetadata::from_endpoint(remote)).expect("room");
    assert!(socket.poll_at(&cx) == PollAt::Now);
    let mut seen = Vec::new();
    let sent = socket.dispatch(
        &mut cx,
        |_: &mut Layer, (ip, repr, payload): (IpRepr, UdpRepr, &[u8])| -> core::result::Result<(), ()> {
            assert!(ip.dst_addr() == remote.addr && (repr.src_port, repr.dst_port) == (7, 53));
            seen.extend_from_slice(payload);
            Ok(())
        },
    );
    assert!(sent.is_ok());
    assert_eq!(seen, b"which name?");
    assert!(socket.poll_at(&cx) == PollAt::Ingress);
}
