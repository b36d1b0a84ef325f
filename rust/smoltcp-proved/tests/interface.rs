//! The rest of an interface's calls: devices around devices, routes, groups, and sockets that come and go.
use smoltcp_proved::iface::{
    Config, Interface, PollIngressSingleResult, PollResult, Route, SocketHandle, SocketSet,
};
use smoltcp_proved::phy::{Device, FaultInjector, Loopback, Medium, PcapMode, PcapWriter, Tracer, TxToken};
use smoltcp_proved::socket::{Socket, icmp, tcp, udp};
use smoltcp_proved::time::{Duration, Instant};
use smoltcp_proved::wire::{
    HardwareAddress, Icmpv4Packet, Icmpv4Repr, Icmpv6Packet, Icmpv6Repr, IpAddress, IpCidr, Ipv4Address,
    Ipv6Address,
};
use std::sync::atomic::{AtomicUsize, Ordering};

const HERE: IpAddress = IpAddress::v4(127, 0, 0, 1);

fn interface<D: Device>(device: &mut D) -> Interface {
    let mut iface = Interface::new(Config::new(HardwareAddress::Ip), device, Instant::ZERO);
    iface.update_ip_addrs(|addrs| {
        addrs.push(IpCidr::new(HERE, 8)).expect("room");
        addrs.push(IpCidr::new(IpAddress::v6(0, 0, 0, 0, 0, 0, 0, 1), 128)).expect("room");
    });
    iface
}

fn tcp_socket() -> tcp::Socket<'static> {
    tcp::Socket::new(tcp::SocketBuffer::new(vec![0; 2000]), tcp::SocketBuffer::new(vec![0; 2000]))
}

fn udp_socket() -> udp::Socket<'static> {
    let buffer = || udp::PacketBuffer::new(vec![udp::PacketMetadata::EMPTY; 4], vec![0; 1000]);
    udp::Socket::new(buffer(), buffer())
}

// A stream of so many bytes over a device, by polls that let time go by: whether all came within two minutes.
fn transfers<D: Device>(device: &mut D, total: usize) -> bool {
    let mut iface = interface(device);
    let mut sockets = SocketSet::new(vec![]);
    let (server, client) = (sockets.add(tcp_socket()), sockets.add(tcp_socket()));
    sockets.get_mut::<tcp::Socket>(server).listen(80).expect("listens");
    let socket = sockets.get_mut::<tcp::Socket>(client);
    socket.connect(iface.context(), (HERE, 80), 49152).expect("connects");
    let (mut now, mut sent, mut got) = (Instant::ZERO, 0, 0);
    while got < total && now < Instant::from_secs(120) {
        let did = iface.poll(now, device, &mut sockets);
        let socket = sockets.get_mut::<tcp::Socket>(client);
        if socket.can_send() {
            sent += socket.send_slice(&vec![(sent % 251) as u8; (total - sent).min(1)]).expect("sends");
            let more: Vec<u8> = (sent..total).map(|place| (place % 251) as u8).collect();
            sent += socket.send_slice(&more).expect("sends");
        }
        let socket = sockets.get_mut::<tcp::Socket>(server);
        if socket.can_recv() {
            let right = |(place, byte): (usize, &u8)| *byte == ((got + place) % 251) as u8;
            let all = socket.recv(|bytes| (bytes.len(), (bytes.len(), bytes.iter().enumerate().all(right))));
            let (len, right) = all.expect("bytes");
            assert!(right, "the bytes are those that were sent");
            got += len;
        }
        if did == PollResult::None {
            now += iface.poll_delay(now, &sockets).unwrap_or(Duration::ZERO).max(Duration::from_millis(1));
        }
    }
    got == total
}

#[test]
fn faults_are_overcome() {
    let mut device = FaultInjector::new(Loopback::new(Medium::Ip), 7);
    device.set_drop_chance(3);
    device.set_corrupt_chance(3);
    assert_eq!((device.drop_chance(), device.corrupt_chance()), (3, 3));
    assert_eq!(device.capabilities().max_transmission_unit, 1536);
    assert!(transfers(&mut device, 20_000));
    let mut device = FaultInjector::new(Loopback::new(Medium::Ip), 7);
    device.set_max_rx_rate(2);
    device.set_bucket_interval(Duration::from_millis(10));
    assert!(transfers(&mut device, 5000));
    let mut device = FaultInjector::new(device.into_inner(), 7);
    device.set_drop_chance(100);
    assert!(!transfers(&mut device, 1));
}

#[test]
#[should_panic(expected = "percentage out of range")]
fn a_chance_is_at_most_a_hundred() {
    FaultInjector::new(Loopback::new(Medium::Ip), 1).set_drop_chance(101);
}

static TRACED: AtomicUsize = AtomicUsize::new(0);

#[test]
fn packets_are_written_down_and_traced() {
    let mut file = Vec::new();
    let tracer = Tracer::new(Loopback::new(Medium::Ip), |_, packet| {
        assert!(packet.to_string().contains("src=127.0.0.1 dst=127.0.0.1 protocol=6"), "{packet}");
        TRACED.fetch_add(1, Ordering::Relaxed);
    });
    let mut device = PcapWriter::new(tracer, &mut file, PcapMode::TxOnly);
    assert!(transfers(&mut device, 3000));
    drop(device);
    let number = |at: usize| u32::from_ne_bytes(file[at..at + 4].try_into().expect("four bytes")) as usize;
    assert_eq!((number(0), number(20)), (0xa1b2_c3d4, 101));
    let (mut at, mut count) = (24, 0);
    while at < file.len() {
        assert_eq!(file[at + 16] >> 4, 4, "a packet of IPv4");
        (at, count) = (at + 16 + number(at + 8), count + 1);
    }
    assert_eq!(at, file.len());
    // those that are sent, and of these all but the last few arrive
    assert!(count > 3 && TRACED.load(Ordering::Relaxed) > count);
}

#[test]
fn twenty_sockets_come_and_go() {
    let mut device = Loopback::new(Medium::Ip);
    let mut iface = interface(&mut device);
    let mut sockets = SocketSet::new(vec![]);
    let mut now = Instant::ZERO;
    for round in 0..3u16 {
        let mut pairs: Vec<(SocketHandle, SocketHandle)> = Vec::new();
        for number in 0..10 {
            let (server, client) = (sockets.add(tcp_socket()), sockets.add(tcp_socket()));
            sockets.get_mut::<tcp::Socket>(server).listen(1000 + number).expect("listens");
            let socket = sockets.get_mut::<tcp::Socket>(client);
            let from = 50_000 + 100 * round + number;
            socket.connect(iface.context(), (HERE, 1000 + number), from).expect("connects");
            pairs.push((server, client));
        }
        assert_eq!(sockets.iter().count(), 20);
        for _ in 0..20 {
            while iface.poll_ingress_single(now, &mut device, &mut sockets) != PollIngressSingleResult::None {
            }
            iface.poll_egress(now, &mut device, &mut sockets);
            iface.poll_maintenance(now);
            for (_, socket) in sockets.iter_mut() {
                let Socket::Tcp(tcp) = socket else { continue };
                if tcp.can_send() && tcp.send_queue() == 0 && tcp.recv_queue() == 0 {
                    tcp.send_slice(b"hello").expect("sends");
                }
            }
            now += iface.poll_delay(now, &sockets).unwrap_or(Duration::ZERO).min(Duration::from_millis(10));
        }
        for (server, client) in pairs {
            for handle in [server, client] {
                assert_eq!(sockets.get::<tcp::Socket>(handle).state(), tcp::State::Established);
                assert!(sockets.get_mut::<tcp::Socket>(handle).can_recv());
                sockets.get_mut::<tcp::Socket>(handle).abort();
            }
            iface.poll(now, &mut device, &mut sockets);
            assert!(matches!(sockets.remove(server), Socket::Tcp(_)));
            sockets.remove(client);
        }
        assert_eq!(sockets.iter().count(), 0);
    }
}

// What a socket is told by `iter_mut` alone is done at the next poll.
#[test]
fn all_sockets_may_be_changed_at_once() {
    let mut device = Loopback::new(Medium::Ip);
    let mut iface = interface(&mut device);
    let mut sockets = SocketSet::new(vec![]);
    let handles: Vec<SocketHandle> = (0..5).map(|_| sockets.add(udp_socket())).collect();
    for (number, (handle, socket)) in sockets.iter_mut().enumerate() {
        assert_eq!(handle, handles[number]);
        let Socket::Udp(udp) = socket else { panic!("a UDP socket") };
        udp.bind(7000 + number as u16).expect("binds");
        let to = 7000 + (number as u16 + 1) % 5;
        udp.send_slice(&[number as u8], (HERE, to)).expect("sends");
    }
    assert_eq!(iface.poll_at(Instant::ZERO, &sockets), Some(Instant::ZERO));
    for _ in 0..2 {
        iface.poll(Instant::ZERO, &mut device, &mut sockets);
    }
    for (number, handle) in handles.iter().enumerate() {
        let (bytes, from) = sockets.get_mut::<udp::Socket>(*handle).recv().expect("a datagram");
        assert_eq!(bytes, [((number + 4) % 5) as u8]);
        assert_eq!(from.endpoint.port, 7000 + (number as u16 + 4) % 5);
    }
}

#[test]
fn routes_are_set_and_taken_away() {
    let mut device = Loopback::new(Medium::Ip);
    let mut iface = interface(&mut device);
    let (one, other) = (Ipv4Address::new(10, 0, 0, 1), Ipv4Address::new(10, 0, 0, 2));
    let routes = iface.routes_mut();
    assert!(routes.add_default_ipv4_route(one).expect("room").is_none());
    let old = routes.add_default_ipv4_route(other).expect("room").expect("the one before");
    assert!(old.via_router == one.into() && old.cidr.prefix_len() == 0);
    let gateway = Ipv6Address::new(0xfe80, 0, 0, 0, 0, 0, 0, 1);
    assert!(routes.add_default_ipv6_route(gateway).expect("room").is_none());
    routes.update(|list| {
        assert_eq!(list.len(), 2);
        while list.push(Route::new_ipv4_gateway(one)).is_ok() {}
        list.remove(1);
        list.push(Route::new_ipv4_gateway(one)).expect("room");
    });
    assert!(routes.add_default_ipv6_route(gateway).is_err());
    assert!(routes.remove_default_ipv6_route().is_none());
    assert!(routes.remove_default_ipv4_route().is_some());
}

// A packet to a foreign address, as another host sends it.
fn datagram_to(device: &mut Loopback, dst: IpAddress) {
    let mut sender = Loopback::new(Medium::Ip);
    let mut iface = Interface::new(Config::new(HardwareAddress::Ip), &mut sender, Instant::ZERO);
    iface.update_ip_addrs(|addrs| addrs.push(IpCidr::new(IpAddress::v4(10, 0, 0, 9), 24)).expect("room"));
    let mut sockets = SocketSet::new(vec![]);
    let handle = sockets.add(udp_socket());
    sockets.get_mut::<udp::Socket>(handle).bind(9).expect("binds");
    sockets.get_mut::<udp::Socket>(handle).send_slice(b"hi", (dst, 7)).expect("sends");
    iface.poll_egress(Instant::ZERO, &mut sender, &mut sockets);
    let (packet, _) = sender.receive(Instant::ZERO).expect("a packet");
    let bytes = smoltcp_proved::phy::RxToken::consume(packet, <[u8]>::to_vec);
    let room = device.transmit(Instant::ZERO).expect("room");
    room.consume(bytes.len(), |packet| packet.copy_from_slice(&bytes));
}

#[test]
fn packets_to_any_address_are_taken() {
    let own = IpAddress::v4(10, 0, 0, 1);
    for (any, routed, heard) in [(false, true, false), (true, false, false), (true, true, true)] {
        let mut device = Loopback::new(Medium::Ip);
        let mut iface = Interface::new(Config::new(HardwareAddress::Ip), &mut device, Instant::ZERO);
        iface.update_ip_addrs(|addrs| addrs.push(IpCidr::new(own, 24)).expect("room"));
        iface.set_any_ip(any);
        assert_eq!(iface.any_ip(), any);
        if routed {
            iface.routes_mut().add_default_ipv4_route(Ipv4Address::new(10, 0, 0, 1)).expect("room");
        }
        let mut sockets = SocketSet::new(vec![]);
        let handle = sockets.add(udp_socket());
        sockets.get_mut::<udp::Socket>(handle).bind(7).expect("binds");
        for last in 1..40 {
            datagram_to(&mut device, IpAddress::v4(192, 168, 3, last));
            iface.poll(Instant::ZERO, &mut device, &mut sockets);
            assert_eq!(iface.ip_addrs(), [IpCidr::new(own, 24)]);
            let got = sockets.get_mut::<udp::Socket>(handle).recv().map(|(bytes, from)| {
                assert_eq!(from.local_address, Some(IpAddress::v4(192, 168, 3, last)));
                bytes == b"hi"
            });
            assert_eq!(got.is_ok(), heard);
        }
    }
}

#[test]
fn groups_are_joined_and_left() {
    let mut device = Loopback::new(Medium::Ip);
    let mut iface = interface(&mut device);
    let group = IpAddress::v4(224, 0, 1, 1);
    iface.join_multicast_group(group).expect("room");
    assert!(iface.has_multicast_group(group));
    iface.leave_multicast_group(group).expect("was joined");
    assert!(!iface.has_multicast_group(group));
    assert!(iface.join_multicast_group(HERE).is_err());
}

#[test]
#[should_panic(expected = "is not unicast")]
fn addresses_are_of_one_host() {
    let mut device = Loopback::new(Medium::Ip);
    let group = IpCidr::new(IpAddress::v4(224, 0, 0, 1), 8);
    interface(&mut device).update_ip_addrs(|addrs| addrs.push(group).expect("room"));
}

#[test]
fn echoes_are_written_and_read() {
    let caps = Loopback::new(Medium::Ip).capabilities().checksum;
    let mut bytes = [0; 12];
    let repr = Icmpv4Repr::EchoRequest { ident: 5, seq_no: 6, data: b"abcd" };
    assert_eq!(repr.buffer_len(), bytes.len());
    repr.emit(&mut Icmpv4Packet::new_unchecked(&mut bytes), &caps);
    let packet = Icmpv4Packet::new_checked(&bytes).expect("long enough");
    assert!(packet.verify_checksum() && packet.data() == b"abcd" && packet.echo_ident() == 5);
    assert_eq!(Icmpv4Repr::parse(&packet, &caps), Ok(repr));
    let (src, dst) =
        (Ipv6Address::new(0xfdaa, 0, 0, 0, 0, 0, 0, 1), Ipv6Address::new(0xfdaa, 0, 0, 0, 0, 0, 0, 2));
    let repr = Icmpv6Repr::EchoReply { ident: 5, seq_no: 6, data: b"abcd" };
    repr.emit(&src, &dst, &mut Icmpv6Packet::new_unchecked(&mut bytes), &caps);
    let mut packet = Icmpv6Packet::new_unchecked(&mut bytes);
    assert!(packet.verify_checksum(&src, &dst) && !packet.verify_checksum(&src, &src));
    packet.set_echo_seq_no(7);
    packet.fill_checksum(&src, &dst);
    let packet = Icmpv6Packet::new_checked(&bytes).expect("long enough");
    let parsed = Icmpv6Repr::parse(&src, &dst, &packet, &caps);
    assert_eq!(parsed, Ok(Icmpv6Repr::EchoReply { ident: 5, seq_no: 7, data: b"abcd" }));
    assert!(Icmpv6Packet::new_checked(&bytes[..7]).is_err());
}

#[test]
fn an_echo_socket_has_its_messages() {
    let buffer = || icmp::PacketBuffer::new(vec![icmp::PacketMetadata::EMPTY; 2], vec![0; 100]);
    let mut socket = icmp::Socket::new(buffer(), buffer());
    socket.bind(icmp::Endpoint::Ident(7)).expect("binds");
    let repr = Icmpv4Repr::EchoRequest { ident: 7, seq_no: 1, data: b"x" };
    let payload = socket.send(repr.buffer_len(), HERE).expect("room");
    repr.emit(&mut Icmpv4Packet::new_unchecked(payload), &Default::default());
    assert_eq!(socket.send_queue(), 9);
}

/// No setting that a program did not make ends a connection, as in smoltcp.
#[test]
fn a_silent_connection_stays() {
    let mut device = Loopback::new(Medium::Ip);
    let mut iface = interface(&mut device);
    let mut sockets = SocketSet::new(vec![]);
    let (server, client) = (sockets.add(tcp_socket()), sockets.add(tcp_socket()));
    sockets.get_mut::<tcp::Socket>(server).listen(80).expect("listens");
    let socket = sockets.get_mut::<tcp::Socket>(client);
    socket.set_timeout(Some(Duration::from_secs(3000)));
    socket.connect(iface.context(), (HERE, 80), 49152).expect("connects");
    for seconds in 0..1200 {
        for millis in [0, 10, 20, 30] {
            let now = Instant::from_secs(seconds) + Duration::from_millis(millis);
            iface.poll(now, &mut device, &mut sockets);
        }
    }
    for handle in [server, client] {
        assert_eq!(sockets.get::<tcp::Socket>(handle).state(), tcp::State::Established);
    }
    assert_eq!(sockets.get::<tcp::Socket>(client).timeout(), Some(Duration::from_secs(3000)));
    assert_eq!(sockets.get::<tcp::Socket>(server).timeout(), None);
}

/// A ping of an own address over a loopback: the socket hears its own request, and then the answer, as in smoltcp.
#[test]
fn an_own_address_answers_pings() {
    for (own, is_v4) in [(HERE, true), (IpAddress::v6(0, 0, 0, 0, 0, 0, 0, 1), false)] {
        let mut device = Loopback::new(Medium::Ip);
        let mut iface = interface(&mut device);
        let buffer = || icmp::PacketBuffer::new(vec![icmp::PacketMetadata::EMPTY; 4], vec![0; 400]);
        let mut sockets = SocketSet::new(vec![]);
        let handle = sockets.add(icmp::Socket::new(buffer(), buffer()));
        let socket = sockets.get_mut::<icmp::Socket>(handle);
        socket.bind(icmp::Endpoint::Ident(7)).expect("binds");
        let caps = device.capabilities().checksum;
        let addr = Ipv6Address::LOCALHOST;
        if is_v4 {
            let repr = Icmpv4Repr::EchoRequest { ident: 7, seq_no: 1, data: b"ping" };
            let room = socket.send(repr.buffer_len(), own).expect("room");
            repr.emit(&mut Icmpv4Packet::new_unchecked(room), &caps);
        } else {
            let repr = Icmpv6Repr::EchoRequest { ident: 7, seq_no: 1, data: b"ping" };
            let room = socket.send(repr.buffer_len(), own).expect("room");
            repr.emit(&addr, &addr, &mut Icmpv6Packet::new_unchecked(room), &caps);
        }
        for millis in 0..5 {
            iface.poll(Instant::from_millis(millis), &mut device, &mut sockets);
        }
        let socket = sockets.get_mut::<icmp::Socket>(handle);
        let kinds: Vec<u8> = std::iter::from_fn(|| socket.recv().ok().map(|(bytes, _)| bytes[0])).collect();
        assert_eq!(kinds, if is_v4 { [8, 0] } else { [128, 129] });
    }
}
