//! A socket of any kind.
mod common;
use common::*;
use smoltcp_proved::PollAt;
use smoltcp_proved::socket::{AnySocket, Socket, icmp, raw, tcp, udp};
use smoltcp_proved::wire::{IpProtocol, IpVersion, Ipv4Repr};

#[test]
fn each_kind_and_no_other() {
    let (mut rx, mut tx) = ([0; 9], [0; 9]);
    let mut any: Socket<'_> = socket(&mut rx, &mut tx).into();
    assert!(tcp::Socket::downcast(&any).is_some() && udp::Socket::downcast(&any).is_none());
    assert!(icmp::Socket::downcast_mut(&mut any).is_none() && raw::Socket::downcast_mut(&mut any).is_none());
    tcp::Socket::downcast_mut(&mut any).expect("a TCP socket").listen(80).expect("a closed socket listens");
    let any = Socket::downcast(&any).expect("a socket of any kind");
    assert!(matches!(any, Socket::Tcp(socket) if socket.is_listening()));

    let mut places = [[udp::PacketMetadata::EMPTY; 2]; 2];
    let ([p, q], [r, s]) = (&mut places, &mut [[0; 9]; 2]);
    let (rx, tx) = (udp::PacketBuffer::new(p, r), udp::PacketBuffer::new(q, s));
    let mut any: Socket<'_> = udp::Socket::new(rx, tx).upcast();
    assert!(tcp::Socket::downcast(&any).is_none() && raw::Socket::downcast(&any).is_none());
    let socket = udp::Socket::downcast_mut(&mut any).expect("a UDP socket");
    assert_eq!((socket.bind(53), socket.is_open()), (Ok(()), true));
    let Socket::Udp(socket) = any else { panic!("another kind") };
    assert!(socket.is_open());
}

/// One packet of each kind, which one socket emits and the same one of four takes.
#[test]
fn a_host_of_four() {
    let (mut udp_places, mut icmp_places, mut raw_places) = (
        [[udp::PacketMetadata::EMPTY; 2]; 2],
        [[icmp::PacketMetadata::EMPTY; 2]; 2],
        [[raw::PacketMetadata::EMPTY; 2]; 2],
    );
    let mut bytes = [[0; 100]; 8];
    let [a, b, c, d, e, f, g, h] = &mut bytes;
    let mut of_tcp = socket(a, b);
    let [p, q] = &mut udp_places;
    let (rx, tx) = (udp::PacketBuffer::new(p, c), udp::PacketBuffer::new(q, d));
    let mut of_udp = udp::Socket::new(rx, tx);
    let [p, q] = &mut icmp_places;
    let (rx, tx) = (icmp::PacketBuffer::new(p, e), icmp::PacketBuffer::new(q, f));
    let mut of_icmp = icmp::Socket::new(rx, tx);
    let [p, q] = &mut raw_places;
    let (rx, tx) = (raw::PacketBuffer::new(p, g), raw::PacketBuffer::new(q, h));
    let (version, protocol) = (Some(IpVersion::Ipv4), Some(IpProtocol::Unknown(200)));
    let mut of_raw = raw::Socket::new(version, protocol, rx, tx);

    let mut cx = context(1, 1000);
    of_tcp.connect(&mut cx, (A, 80), 49152).expect("a closed socket connects");
    of_udp.bind(53).expect("a closed socket opens");
    of_udp.send_slice(b"datagram", (A, 53)).expect("room");
    of_icmp.bind(icmp::Endpoint::Ident(7)).expect("a closed socket opens");
    of_icmp.send_slice(&[8, 0, 0, 0, 0, 7, 0, 1], A).expect("room");
    let mut packet = [0; 20];
    let (src_addr, dst_addr, next_header) =
        ([10, 0, 0, 1].into(), [10, 0, 0, 1].into(), IpProtocol::Unknown(200));
    put_header(&Ipv4Repr { src_addr, dst_addr, next_header, payload_len: 0, hop_limit: 64 }, &mut packet);
    of_raw.send_slice(&packet).expect("room");

    let mut sockets = [Socket::Raw(of_raw), of_icmp.into(), of_udp.into(), of_tcp.into()];
    let (mut out, mut reply) = ([0; 100], [0; REPLY_LEN]);
    for n in 0..4 {
        assert_eq!(sockets[n].poll_at(&cx), PollAt::Now);
        let of_bytes = |socket: &mut Socket<'_>, out: &mut [u8]| bytes_of(socket).emit(&cx, out);
        assert_eq!(of_bytes(&mut sockets[n], &mut out[..10]), Err(TooShort));
        let len = of_bytes(&mut sockets[n], &mut out).expect("room").expect("a packet");
        let mut told = cx.clone();
        let hear = |socket| bytes_of(socket).hear(&mut told, &out[..len], &mut reply);
        let taken: Vec<_> = sockets.iter_mut().map(hear).collect();
        // the SYN is for a listening socket, of which there is none; the others' packets come back to them
        let wanted: Vec<_> =
            (0..4).map(|k| if k == n && n < 3 { Ok(None) } else { Err(NotAccepted) }).collect();
        assert_eq!(taken, wanted, "{n}");
    }
    assert!(matches!(&sockets[2], Socket::Udp(socket) if socket.recv_queue() == 8));
}

fn bytes_of<'c>(socket: &'c mut Socket<'_>) -> &'c mut dyn OfBytes {
    match socket {
        Socket::Raw(socket) => socket,
        Socket::Icmp(socket) => socket,
        Socket::Udp(socket) => socket,
        Socket::Tcp(socket) => socket,
    }
}
