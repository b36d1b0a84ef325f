//! Each name that a user of smoltcp's IP media knows, with the argument forms that he writes: that this compiles is what
//! is tested. With another crate under the name `smoltcp` it is a test of that one.
#![allow(unused, clippy::all)]
extern crate smoltcp_proved as smoltcp;

use core::fmt::Write as _;
use core::net::{IpAddr, Ipv4Addr, Ipv6Addr, SocketAddr, SocketAddrV4, SocketAddrV6};
use core::task::Waker;
use smoltcp::iface::{
    Config, Context, Interface, MulticastError, PollIngressSingleResult, PollResult, Route, RouteTableFull,
    Routes, SocketHandle, SocketSet, SocketStorage,
};
use smoltcp::phy::{
    self, Checksum, ChecksumCapabilities, Device, DeviceCapabilities, FaultInjector, Loopback, Medium,
    PacketMeta, PcapLinkType, PcapMode, PcapSink, PcapWriter, RxToken, Tracer, TracerDirection, TracerPacket,
    TxToken,
};
use smoltcp::socket::{self, AnySocket, Socket, icmp, raw, tcp, udp};
use smoltcp::storage::{self, Empty, Full, PacketBuffer, PacketMetadata, Resettable, RingBuffer};
use smoltcp::time::{Duration, Instant};
use smoltcp::wire::{self, *};
use std::collections::{BTreeMap, HashMap, HashSet};
use std::error::Error as StdError;
use std::fmt::{Debug, Display};
use std::hash::Hash;
use std::str::FromStr;

type Std<T, E> = core::result::Result<T, E>;

fn is<T>(_: &T) {}
fn shown<T: Display + Debug>(_: &T) {}
fn keyed<T: Copy + Eq + Ord + Hash + Debug>(_: &T) {}
fn fails<T: StdError + Copy + Eq>(_: &T) {}

fn of_time(now: Instant, length: Duration) {
    is::<Instant>(&Instant::from_micros(5i64));
    is::<Instant>(&Instant::from_micros(5i32));
    is::<Instant>(&Instant::from_millis(5));
    is::<Instant>(&Instant::from_secs(5u32));
    const CONSTANT: Instant = Instant::from_micros_const(7);
    const OTHER: Instant = Instant::from_millis_const(7);
    let _: [i64; 5] = [now.millis(), now.micros(), now.secs(), now.total_millis(), now.total_micros()];
    let _: [u64; 5] =
        [length.millis(), length.micros(), length.secs(), length.total_millis(), length.total_micros()];
    keyed(&now);
    shown(&now);
    shown(&length);
    let mut then = now + length - length;
    then += length;
    then -= length;
    is::<Duration>(&(now - then));
    let mut twice = (length + length - length) * 2 / 3 << 1 >> 1;
    twice += length;
    twice -= length;
    twice *= 2;
    twice /= 2;
    twice <<= 1;
    twice >>= 1;
    const LONGEST: Duration = Duration::MAX;
    const LENGTHS: [Duration; 4] =
        [Duration::ZERO, Duration::from_micros(1), Duration::from_millis(1), Duration::from_secs(1)];
    is::<Duration>(&Duration::default());
    is::<core::time::Duration>(&length.into());
    is::<Duration>(&core::time::Duration::from_secs(1).into());
    is::<Instant>(&Instant::now());
    is::<Instant>(&std::time::Instant::now().into());
    is::<Instant>(&std::time::SystemTime::now().into());
    is::<std::time::SystemTime>(&now.into());
    let _ = now.max(then).min(Instant::ZERO) < then;
}

fn of_addresses() {
    let four: Ipv4Address = Ipv4Addr::new(10, 0, 0, 1);
    let six: Ipv6Address = Ipv6Addr::LOCALHOST;
    let _: [u8; 4] = four.octets();
    let _: [u16; 8] = six.segments();
    let _ = (four.is_private(), six.is_unicast_link_local(), four.to_bits(), Ipv4Address::from([1, 2, 3, 4]));
    const ADDR: IpAddress = IpAddress::v4(10, 0, 0, 1);
    const LONG: IpAddress = IpAddress::v6(0xfd00, 0, 0, 0, 0, 0, 0, 1);
    keyed(&ADDR);
    shown(&ADDR);
    let _: IpVersion = ADDR.version();
    let _ = (
        ADDR.is_unicast(),
        ADDR.is_multicast(),
        ADDR.is_broadcast(),
        ADDR.is_unspecified(),
        ADDR.is_loopback(),
    );
    let _: Option<u8> = ADDR.prefix_len();
    let all: [IpAddress; 4] = [four.into(), six.into(), IpAddr::V4(four).into(), IpAddress::Ipv4(four)];
    is::<IpAddr>(&ADDR.into());
    let _: Std<IpAddress, ()> = "10.0.0.1".parse();
    match ADDR {
        IpAddress::Ipv4(addr) => is::<Ipv4Addr>(&addr),
        IpAddress::Ipv6(addr) => is::<Ipv6Addr>(&addr),
    }
    let versions: [IpVersion; 2] = [IpVersion::Ipv4, IpVersion::Ipv6];
    let _: Result<IpVersion> = IpVersion::of_packet(&[0x45]);
    keyed(&versions[0]);
    shown(&versions[0]);
    let protocols = [
        IpProtocol::HopByHop,
        IpProtocol::Icmp,
        IpProtocol::Igmp,
        IpProtocol::Tcp,
        IpProtocol::Udp,
        IpProtocol::Ipv6Route,
        IpProtocol::Ipv6Frag,
        IpProtocol::IpSecEsp,
        IpProtocol::IpSecAh,
        IpProtocol::Icmpv6,
        IpProtocol::Ipv6NoNxt,
        IpProtocol::Ipv6Opts,
        IpProtocol::Unknown(99),
    ];
    match protocols[0] {
        IpProtocol::HopByHop | IpProtocol::Igmp => {}
        IpProtocol::Tcp => {}
        _ => {}
    }
    keyed(&protocols[0]);
    shown(&protocols[0]);
    let _: (u8, IpProtocol) = (protocols[0].into(), 6.into());
}

fn of_cidrs() {
    const FOUR: Ipv4Cidr = Ipv4Cidr::new(Ipv4Address::new(10, 0, 0, 1), 24);
    const SIX: Ipv6Cidr = Ipv6Cidr::new(Ipv6Address::LOCALHOST, 128);
    const ANY: IpCidr = IpCidr::new(IpAddress::v4(10, 0, 0, 1), 24);
    let _: Result<Ipv4Cidr> = Ipv4Cidr::from_netmask(FOUR.address(), FOUR.netmask());
    let _: (u8, Option<Ipv4Address>, Ipv4Cidr) = (FOUR.prefix_len(), FOUR.broadcast(), FOUR.network());
    let _ = (FOUR.contains_addr(&FOUR.address()), FOUR.contains_subnet(&FOUR));
    let _ = (SIX.contains_addr(&SIX.address()), SIX.contains_subnet(&SIX), SIX.prefix_len());
    let _ = (ANY.contains_addr(&ANY.address()), ANY.contains_subnet(&ANY), ANY.prefix_len());
    let _: [IpCidr; 3] = [FOUR.into(), SIX.into(), IpCidr::Ipv4(FOUR)];
    let _: (Std<IpCidr, ()>, Std<Ipv4Cidr, ()>, Std<Ipv6Cidr, ()>) = ("a".parse(), "b".parse(), "c".parse());
    match ANY {
        IpCidr::Ipv4(cidr) => is::<Ipv4Cidr>(&cidr),
        IpCidr::Ipv6(cidr) => is::<Ipv6Cidr>(&cidr),
    }
    keyed(&ANY);
    keyed(&FOUR);
    keyed(&SIX);
    shown(&ANY);
    shown(&FOUR);
    shown(&SIX);
}

fn of_endpoints(end: IpEndpoint, listen: IpListenEndpoint) {
    const END: IpEndpoint = IpEndpoint::new(IpAddress::v4(10, 0, 0, 1), 80);
    let socket: SocketAddr = "10.0.0.1:80".parse().unwrap();
    let four = SocketAddrV4::new(Ipv4Address::new(10, 0, 0, 1), 80);
    let six = SocketAddrV6::new(Ipv6Address::LOCALHOST, 80, 0, 0);
    let _: [IpEndpoint; 6] = [
        socket.into(),
        four.into(),
        six.into(),
        (end.addr, 80).into(),
        (Ipv4Address::UNSPECIFIED, 80).into(),
        IpEndpoint { addr: end.addr, port: 1 },
    ];
    let _: [IpListenEndpoint; 8] = [
        socket.into(),
        four.into(),
        six.into(),
        80.into(),
        end.into(),
        (end.addr, 80).into(),
        (Ipv6Address::LOCALHOST, 80).into(),
        IpListenEndpoint { addr: None, port: 1 },
    ];
    let _: bool = listen.is_specified();
    let _: Std<IpEndpoint, ()> = "10.0.0.1:80".parse();
    keyed(&end);
    keyed(&listen);
    shown(&end);
    shown(&listen);
    is(&IpListenEndpoint::default());
    let mut peers: HashMap<IpEndpoint, u32> = HashMap::new();
    peers.insert(end, 1);
    let address = HardwareAddress::Ip;
    keyed(&address);
    shown(&address);
    let _: (&[u8], bool, bool) = (address.as_bytes(), address.is_unicast(), address.is_broadcast());
}

fn of_constants() {
    let _: [usize; 6] =
        [IPV4_HEADER_LEN, IPV4_MIN_MTU, IPV6_HEADER_LEN, IPV6_MIN_MTU, UDP_HEADER_LEN, TCP_HEADER_LEN];
    let _: [Ipv4Address; 2] = [IPV4_MULTICAST_ALL_SYSTEMS, IPV4_MULTICAST_ALL_ROUTERS];
    let _: [Ipv6Address; 2] = [IPV6_LINK_LOCAL_ALL_NODES, IPV6_LINK_LOCAL_ALL_ROUTERS];
    fails(&wire::Error);
    let _: [usize; 4] = [
        smoltcp::config::IFACE_MAX_ADDR_COUNT,
        smoltcp::config::IFACE_MAX_ROUTE_COUNT,
        smoltcp::config::IFACE_MAX_MULTICAST_GROUP_COUNT,
        smoltcp::config::ASSEMBLER_MAX_SEGMENT_COUNT,
    ];
}

fn of_ipv4(bytes: &mut [u8], caps: &ChecksumCapabilities) -> Result<()> {
    let packet = Ipv4Packet::new_unchecked(&bytes[..]);
    packet.check_len()?;
    let packet = Ipv4Packet::new_checked(&bytes[..])?;
    let _: [u8; 5] = [packet.version(), packet.header_len(), packet.dscp(), packet.ecn(), packet.hop_limit()];
    let _: [u16; 4] = [packet.total_len(), packet.ident(), packet.frag_offset(), packet.checksum()];
    let _: [bool; 3] = [packet.dont_frag(), packet.more_frags(), packet.verify_checksum()];
    let _: (IpProtocol, Ipv4Address, Ipv4Address) =
        (packet.next_header(), packet.src_addr(), packet.dst_addr());
    let _: &[u8] = packet.payload();
    let _: &[u8] = packet.as_ref();
    shown(&packet);
    let repr: Ipv4Repr = Ipv4Repr::parse(&packet, caps)?;
    let _: &[u8] = packet.into_inner();
    let owned = Ipv4Packet::new_checked(vec![0u8; 20])?;
    let Ipv4Repr { src_addr, dst_addr, next_header, payload_len, hop_limit } = repr;
    let repr = Ipv4Repr { src_addr, dst_addr, next_header, payload_len, hop_limit };
    let _: usize = repr.buffer_len();
    let mut packet = Ipv4Packet::new_unchecked(bytes);
    repr.emit(&mut packet, caps);
    packet.set_version(4);
    packet.set_header_len(20);
    packet.set_dscp(0);
    packet.set_ecn(0);
    packet.set_total_len(20);
    packet.set_ident(0);
    packet.clear_flags();
    packet.set_dont_frag(true);
    packet.set_more_frags(false);
    packet.set_frag_offset(0);
    packet.set_hop_limit(64);
    packet.set_next_header(IpProtocol::Tcp);
    packet.set_checksum(0);
    packet.set_src_addr(src_addr);
    packet.set_dst_addr(dst_addr);
    packet.fill_checksum();
    packet.payload_mut().fill(0);
    Ok(())
}

fn of_ipv6(bytes: &mut [u8]) -> Result<()> {
    let packet = Ipv6Packet::new_checked(&bytes[..])?;
    packet.check_len()?;
    let _: [u8; 3] = [packet.version(), packet.traffic_class(), packet.hop_limit()];
    let _: (u32, u16, usize) = (packet.flow_label(), packet.payload_len(), packet.total_len());
    let _: (usize, IpProtocol, Ipv6Address, Ipv6Address) =
        (packet.header_len(), packet.next_header(), packet.src_addr(), packet.dst_addr());
    let _: &[u8] = packet.payload();
    shown(&packet);
    let repr: Ipv6Repr = Ipv6Repr::parse(&packet)?;
    let Ipv6Repr { src_addr, dst_addr, next_header, payload_len, hop_limit } = repr;
    let repr = Ipv6Repr { src_addr, dst_addr, next_header, payload_len, hop_limit };
    let _: usize = repr.buffer_len();
    let mut packet = Ipv6Packet::new_unchecked(bytes);
    repr.emit(&mut packet);
    packet.set_version(6);
    packet.set_traffic_class(0);
    packet.set_flow_label(0);
    packet.set_payload_len(0);
    packet.set_next_header(IpProtocol::Udp);
    packet.set_hop_limit(64);
    packet.set_src_addr(src_addr);
    packet.set_dst_addr(dst_addr);
    packet.payload_mut().fill(0);
    Ok(())
}

fn of_icmpv4<'a>(
    bytes: &'a mut [u8],
    other: &'a [u8],
    caps: &ChecksumCapabilities,
) -> Result<Icmpv4Repr<'a>> {
    let packet = Icmpv4Packet::new_checked(&bytes[..])?;
    packet.check_len()?;
    let _: (Icmpv4Message, u8, u16) = (packet.msg_type(), packet.msg_code(), packet.checksum());
    let _: (u16, u16, usize, bool) =
        (packet.echo_ident(), packet.echo_seq_no(), packet.header_len(), packet.verify_checksum());
    let _: &[u8] = packet.data();
    shown(&packet);
    match Icmpv4Repr::parse(&packet, caps)? {
        Icmpv4Repr::EchoRequest { ident, seq_no, data } => is::<(u16, u16, &[u8])>(&(ident, seq_no, data)),
        Icmpv4Repr::EchoReply { ident, seq_no, data } => {}
        Icmpv4Repr::DstUnreachable { reason: Icmpv4DstUnreachable::PortUnreachable, header, data } => {
            is::<Ipv4Repr>(&header);
        }
        Icmpv4Repr::TimeExceeded { reason: Icmpv4TimeExceeded::TtlExpired, header, data } => {}
        _ => {}
    }
    let repr = Icmpv4Repr::EchoReply { ident: 1, seq_no: 2, data: &[] };
    let _: usize = repr.buffer_len();
    let mut packet = Icmpv4Packet::new_unchecked(bytes);
    repr.emit(&mut packet, caps);
    packet.set_msg_type(Icmpv4Message::EchoReply);
    packet.set_msg_code(0);
    packet.set_checksum(0);
    packet.set_echo_ident(0);
    packet.set_echo_seq_no(0);
    packet.fill_checksum();
    packet.data_mut().fill(0);
    let _ = [
        Icmpv4Message::EchoReply,
        Icmpv4Message::DstUnreachable,
        Icmpv4Message::Redirect,
        Icmpv4Message::EchoRequest,
        Icmpv4Message::RouterAdvert,
        Icmpv4Message::RouterSolicit,
        Icmpv4Message::TimeExceeded,
        Icmpv4Message::ParamProblem,
        Icmpv4Message::Timestamp,
        Icmpv4Message::TimestampReply,
        Icmpv4Message::Unknown(200),
        8.into(),
    ];
    let _: u8 = Icmpv4DstUnreachable::FragRequired.into();
    Icmpv4Repr::parse(&Icmpv4Packet::new_checked(other)?, caps)
}

fn of_icmpv6(bytes: &mut [u8], caps: &ChecksumCapabilities) -> Result<()> {
    let (src, dst) = (&Ipv6Address::LOCALHOST, &Ipv6Address::LOCALHOST);
    let packet = Icmpv6Packet::new_checked(&bytes[..])?;
    let _: (Icmpv6Message, u8, u16) = (packet.msg_type(), packet.msg_code(), packet.checksum());
    let _: (u16, u16, u32, u32, usize) = (
        packet.echo_ident(),
        packet.echo_seq_no(),
        packet.pkt_too_big_mtu(),
        packet.param_problem_ptr(),
        packet.header_len(),
    );
    let _: bool = packet.verify_checksum(src, dst);
    let _: &[u8] = packet.payload();
    shown(&packet);
    match Icmpv6Repr::parse(src, dst, &packet, caps)? {
        Icmpv6Repr::DstUnreachable { reason: Icmpv6DstUnreachable::NoRoute, header, data } => {}
        Icmpv6Repr::PktTooBig { mtu, header, data } => is::<(u32, Ipv6Repr)>(&(mtu, header)),
        Icmpv6Repr::TimeExceeded { reason: Icmpv6TimeExceeded::HopLimitExceeded, header, data } => {}
        Icmpv6Repr::ParamProblem {
            reason: Icmpv6ParamProblem::UnrecognizedNxtHdr,
            pointer,
            header,
            data,
        } => {}
        Icmpv6Repr::EchoRequest { ident, seq_no, data } | Icmpv6Repr::EchoReply { ident, seq_no, data } => {}
        _ => {}
    }
    let repr = Icmpv6Repr::EchoRequest { ident: 1, seq_no: 2, data: b"data" };
    let _: usize = repr.buffer_len();
    let mut packet = Icmpv6Packet::new_unchecked(bytes);
    repr.emit(src, dst, &mut packet, caps);
    packet.set_msg_type(Icmpv6Message::EchoReply);
    packet.set_msg_code(0);
    packet.clear_reserved();
    packet.set_checksum(0);
    packet.set_echo_ident(0);
    packet.set_echo_seq_no(0);
    packet.fill_checksum(src, dst);
    packet.payload_mut().fill(0);
    Ok(())
}

fn of_rings(mut ring: RingBuffer<'_, u8>) {
    let _: [usize; 4] = [ring.capacity(), ring.len(), ring.window(), ring.contiguous_window()];
    let _: [bool; 2] = [ring.is_empty(), ring.is_full()];
    ring.clear();
    let _: Std<Std<u8, ()>, Full> = ring.enqueue_one_with(|place| {
        *place = 1;
        Ok(*place)
    });
    let _: Std<&mut u8, Full> = ring.enqueue_one();
    let _: Std<Std<u8, ()>, Empty> = ring.dequeue_one_with(|item| Ok(*item));
    let _: Std<&mut u8, Empty> = ring.dequeue_one();
    let (count, rest): (usize, &mut [u8]) = ring.enqueue_many_with(|room| (1, room));
    let _: &mut [u8] = ring.enqueue_many(1);
    let _: usize = ring.enqueue_slice(b"a");
    let (count, bytes): (usize, &mut [u8]) = ring.dequeue_many_with(|bytes| (1, bytes));
    let _: &mut [u8] = ring.dequeue_many(1);
    let _: usize = ring.dequeue_slice(&mut [0]);
    let _: &mut [u8] = ring.get_unallocated(0, 1);
    let _: usize = ring.write_unallocated(0, b"a");
    ring.enqueue_unallocated(0);
    let _: &[u8] = ring.get_allocated(0, 1);
    let _: usize = ring.read_allocated(0, &mut [0]);
    ring.dequeue_allocated(0);
    let mut lent = [0u8; 4];
    let _: [RingBuffer<'_, u8>; 3] =
        [RingBuffer::new(&mut lent[..]), RingBuffer::new(vec![0; 4]), RingBuffer::new([0; 4])];
    #[derive(Clone, Copy)]
    struct Item;
    impl Resettable for Item {
        fn reset(&mut self) {}
    }
    RingBuffer::new(vec![Item]).reset();
}

fn of_packet_buffers() {
    let mut buffer: PacketBuffer<'_, u16> = PacketBuffer::new(vec![PacketMetadata::EMPTY; 2], vec![0; 10]);
    let _: [bool; 2] = [buffer.is_empty(), buffer.is_full()];
    let _: Std<&mut [u8], Full> = buffer.enqueue(1, 5);
    let _: Std<usize, Full> = buffer.enqueue_with_infallible(3, 5, |room| room.len());
    let _: Std<Std<u8, ()>, Empty> = buffer.dequeue_with(|header: &mut u16, bytes: &mut [u8]| Ok(bytes[0]));
    let _: Std<(u16, &mut [u8]), Empty> = buffer.dequeue();
    let _: Std<(&u16, &[u8]), Empty> = buffer.peek();
    let _: [usize; 3] = [buffer.packet_capacity(), buffer.payload_capacity(), buffer.payload_bytes_count()];
}

fn stamps() -> u32 {
    1
}

fn of_tcp(cx: &mut Context, waker: &Waker, sockets: &mut SocketSet<'_>) -> Std<(), Box<dyn StdError>> {
    let mut lent = [0; 10];
    let mut socket =
        tcp::Socket::new(tcp::SocketBuffer::new(vec![0; 10]), tcp::SocketBuffer::new(&mut lent[..]));
    socket.set_tsval_generator(Some(stamps));
    socket.set_tsval_generator(None);
    socket.set_congestion_control(tcp::CongestionControl::None);
    let _: tcp::CongestionControl = socket.congestion_control();
    socket.register_recv_waker(waker);
    socket.register_send_waker(waker);
    socket.set_timeout(Some(Duration::from_secs(1)));
    socket.set_ack_delay(Some(Duration::from_millis(1)));
    socket.set_nagle_enabled(true);
    socket.set_keep_alive(Some(Duration::from_secs(1)));
    socket.set_hop_limit(Some(3));
    let _: [Option<Duration>; 3] = [socket.timeout(), socket.ack_delay(), socket.keep_alive()];
    let _: (bool, bool, Option<u8>) =
        (socket.nagle_enabled(), socket.timestamp_enabled(), socket.hop_limit());
    let _: (IpListenEndpoint, Option<IpEndpoint>, Option<IpEndpoint>) =
        (socket.listen_endpoint(), socket.local_endpoint(), socket.remote_endpoint());
    let state: tcp::State = socket.state();
    shown(&state);
    socket.listen(80)?;
    socket.listen((Ipv4Address::new(10, 0, 0, 1), 80))?;
    socket.listen(IpListenEndpoint { addr: None, port: 80 })?;
    socket.connect(cx, (IpAddress::v4(10, 0, 0, 1), 80), 49152)?;
    socket.connect(
        cx,
        (Ipv4Address::new(10, 0, 0, 1), 80),
        IpEndpoint::new(IpAddress::v4(10, 0, 0, 2), 1),
    )?;
    socket.connect(cx, "10.0.0.1:80".parse::<SocketAddr>()?, (Ipv4Addr::LOCALHOST, 1))?;
    let _: [bool; 7] = [
        socket.is_listening(),
        socket.is_open(),
        socket.is_active(),
        socket.may_send(),
        socket.may_recv(),
        socket.can_send(),
        socket.can_recv(),
    ];
    let _: [usize; 4] =
        [socket.recv_capacity(), socket.send_capacity(), socket.send_queue(), socket.recv_queue()];
    let count: usize = socket.send(|room| (room.len().min(3), 3))?;
    let count: usize = socket.send_slice(b"bytes")?;
    let text: String = socket.recv(|bytes| (bytes.len(), String::from_utf8_lossy(bytes).into_owned()))?;
    let bytes: &mut [u8] = socket.recv(|bytes| (bytes.len(), bytes))?;
    socket.recv(|bytes: &mut [u8]| {
        bytes.reverse();
        (bytes.len(), ())
    })?;
    let count: usize = socket.recv_slice(&mut [0; 3])?;
    let bytes: &[u8] = socket.peek(3)?;
    let count: usize = socket.peek_slice(&mut [0; 3])?;
    write!(socket, "{count}")?;
    match socket.recv_slice(&mut [0; 3]) {
        Err(tcp::RecvError::Finished) => {}
        Err(tcp::RecvError::InvalidState) => {}
        Ok(_) => {}
    }
    fails(&tcp::SendError::InvalidState);
    fails(&tcp::ListenError::Unaddressable);
    fails(&tcp::ConnectError::InvalidState);
    socket.close();
    socket.abort();
    match state {
        tcp::State::Closed | tcp::State::Listen | tcp::State::SynSent | tcp::State::SynReceived => {}
        tcp::State::Established | tcp::State::FinWait1 | tcp::State::FinWait2 | tcp::State::CloseWait => {}
        tcp::State::Closing | tcp::State::LastAck | tcp::State::TimeWait => {}
    }
    Ok(())
}

fn of_udp(waker: &Waker) -> Std<(), Box<dyn StdError>> {
    let buffer = || udp::PacketBuffer::new(vec![udp::PacketMetadata::EMPTY; 3], vec![0; 30]);
    let mut socket = udp::Socket::new(buffer(), buffer());
    socket.register_recv_waker(waker);
    socket.register_send_waker(waker);
    socket.set_hop_limit(Some(1));
    socket.bind(53)?;
    socket.bind((Ipv4Address::LOCALHOST, 53))?;
    let _: (IpListenEndpoint, Option<u8>, bool) = (socket.endpoint(), socket.hop_limit(), socket.is_open());
    let _: [bool; 2] = [socket.can_send(), socket.can_recv()];
    let _: [usize; 6] = [
        socket.packet_recv_capacity(),
        socket.packet_send_capacity(),
        socket.payload_recv_capacity(),
        socket.payload_send_capacity(),
        socket.send_queue(),
        socket.recv_queue(),
    ];
    let end = IpEndpoint::new(IpAddress::v4(10, 0, 0, 1), 53);
    let mut meta: udp::UdpMetadata = end.into();
    meta.local_address = Some(IpAddress::v4(10, 0, 0, 2));
    let mark: PacketMeta = meta.meta;
    let whole = udp::UdpMetadata { endpoint: end, local_address: None, meta: PacketMeta::default() };
    shown(&whole);
    let _: [udp::UdpMetadata; 3] = [
        (Ipv4Address::LOCALHOST, 1).into(),
        "10.0.0.1:1".parse::<SocketAddr>()?.into(),
        (end.addr, 4).into(),
    ];
    let _: &mut [u8] = socket.send(3, end)?;
    let _: usize = socket.send_with(3, (IpAddress::v4(10, 0, 0, 1), 53), |room| room.len())?;
    socket.send_slice(b"a", meta)?;
    let (bytes, from): (&[u8], udp::UdpMetadata) = socket.recv()?;
    let (len, from): (usize, udp::UdpMetadata) = socket.recv_slice(&mut [0; 3])?;
    let (bytes, from): (&[u8], &udp::UdpMetadata) = socket.peek()?;
    let (len, from): (usize, &udp::UdpMetadata) = socket.peek_slice(&mut [0; 3])?;
    let copy = *from;
    socket.send_slice(b"a", copy)?;
    let _ = (udp::BindError::InvalidState, udp::SendError::BufferFull, udp::RecvError::Truncated);
    fails(&udp::RecvError::Exhausted);
    socket.close();
    Ok(())
}

fn of_icmp(waker: &Waker) -> Std<(), Box<dyn StdError>> {
    let buffer = || icmp::PacketBuffer::new(vec![icmp::PacketMetadata::EMPTY; 3], vec![0; 30]);
    let mut socket = icmp::Socket::new(buffer(), buffer());
    socket.register_recv_waker(waker);
    socket.register_send_waker(waker);
    socket.set_hop_limit(None);
    socket.bind(icmp::Endpoint::Ident(7))?;
    socket.bind(icmp::Endpoint::Udp(53.into()))?;
    socket.bind(icmp::Endpoint::Tcp(IpListenEndpoint::default()))?;
    let _: [bool; 4] =
        [socket.is_open(), socket.can_send(), socket.can_recv(), icmp::Endpoint::default().is_specified()];
    let _: (usize, usize, Option<u8>) =
        (socket.packet_recv_capacity(), socket.send_queue(), socket.hop_limit());
    let to = IpAddress::v4(10, 0, 0, 1);
    let _: &mut [u8] = socket.send(3, to)?;
    let _: usize = socket.send_with(3, to, |room| room.len())?;
    socket.send_slice(b"a", to)?;
    let (bytes, from): (&[u8], IpAddress) = socket.recv()?;
    let (len, from): (usize, IpAddress) = socket.recv_slice(&mut [0; 3])?;
    let _ = icmp::Endpoint::Unspecified < icmp::Endpoint::Ident(1);
    fails(&icmp::BindError::Unaddressable);
    Ok(())
}

fn of_raw(waker: &Waker) -> Std<(), Box<dyn StdError>> {
    let buffer = || raw::PacketBuffer::new(vec![raw::PacketMetadata::EMPTY; 3], vec![0; 30]);
    let mut socket = raw::Socket::new(Some(IpVersion::Ipv4), Some(IpProtocol::Udp), buffer(), buffer());
    socket.register_recv_waker(waker);
    socket.register_send_waker(waker);
    let _: (Option<IpVersion>, Option<IpProtocol>) = (socket.ip_version(), socket.ip_protocol());
    let _: [bool; 2] = [socket.can_send(), socket.can_recv()];
    let _: [usize; 2] = [socket.payload_send_capacity(), socket.recv_queue()];
    let _: &mut [u8] = socket.send(3)?;
    let _: usize = socket.send_with(3, |room| room.len())?;
    socket.send_slice(b"a")?;
    let _: &[u8] = socket.recv()?;
    let _: usize = socket.recv_slice(&mut [0; 3])?;
    let _: &[u8] = socket.peek()?;
    let _: usize = socket.peek_slice(&mut [0; 3])?;
    fails(&raw::SendError::BufferFull);
    fails(&raw::RecvError::Truncated);
    Ok(())
}

fn generic<'a, T: AnySocket<'a>>(sockets: &mut SocketSet<'a>, socket: T) -> SocketHandle {
    sockets.add(socket)
}

struct Machine<'a> {
    sockets: SocketSet<'a>,
    handles: Vec<SocketHandle>,
    iface: Interface,
    set: HashSet<SocketHandle>,
    tree: BTreeMap<SocketHandle, Instant>,
}

fn of_sets<'a>(sockets: &mut SocketSet<'a>, socket: tcp::Socket<'a>, other: udp::Socket<'a>) {
    let handle: SocketHandle = sockets.add(socket);
    keyed(&handle);
    shown(&handle);
    is(&SocketHandle::default());
    is::<&tcp::Socket>(&sockets.get::<tcp::Socket>(handle));
    let socket: &mut tcp::Socket = sockets.get_mut(handle);
    let socket = sockets.get_mut::<tcp::Socket>(handle);
    for (handle, socket) in sockets.iter() {
        is::<(SocketHandle, &Socket)>(&(handle, socket));
        match socket {
            Socket::Tcp(socket) => is::<tcp::State>(&socket.state()),
            Socket::Udp(socket) => is::<bool>(&socket.is_open()),
            Socket::Icmp(socket) => {}
            Socket::Raw(socket) => {}
            _ => {}
        }
        if let Some(socket) = tcp::Socket::downcast(socket) {
            let _ = socket.is_active();
        }
    }
    for (_, socket) in sockets.iter_mut() {
        if let Socket::Tcp(socket) = socket {
            socket.abort();
        }
        if let Some(socket) = udp::Socket::downcast_mut(socket) {
            socket.close();
        }
    }
    let any: Socket = other.upcast();
    let handle = sockets.add(any);
    let removed: Socket = sockets.remove(handle);
    let count = sockets.iter().filter(|(_, socket)| matches!(socket, Socket::Udp(_))).count();
    let _ = format!("{sockets:?}");
}

fn of_storage() {
    let mut places: [SocketStorage; 4] = [SocketStorage::EMPTY; 4];
    let mut more: [SocketStorage; 2] = Default::default();
    let mut sockets = SocketSet::new(&mut places[..]);
    let _ = SocketSet::new(vec![]);
    let _ = SocketSet::new(Vec::new());
    let _ = SocketSet::new([SocketStorage::EMPTY; 3]);
    let _: SocketStorage = SocketStorage::default();
}

fn of_interface<D: Device>(
    device: &mut D,
    sockets: &mut SocketSet<'_>,
    now: Instant,
) -> Std<(), Box<dyn StdError>> {
    let mut config = Config::new(HardwareAddress::Ip);
    config.random_seed = 7;
    config.hardware_addr = HardwareAddress::Ip;
    let mut iface = Interface::new(config, device, now);
    let cx: &mut Context = iface.context();
    let _: HardwareAddress = iface.hardware_addr();
    iface.set_hardware_addr(HardwareAddress::Ip);
    iface.update_ip_addrs(|addrs| {
        addrs.push(IpCidr::new(IpAddress::v4(10, 0, 0, 1), 24)).unwrap();
        addrs.push(Ipv6Cidr::new(Ipv6Address::LOCALHOST, 128).into()).unwrap();
        addrs.retain(|cidr| cidr.prefix_len() > 3);
        addrs.iter_mut().for_each(|cidr| *cidr = *cidr);
        let _: (Option<IpCidr>, usize, bool, bool) =
            (addrs.pop(), addrs.len(), addrs.is_empty(), addrs.is_full());
        let _ = addrs.insert(0, IpCidr::new(IpAddress::v4(10, 0, 0, 1), 24));
        let _ = addrs.iter().position(|cidr| cidr.address() == IpAddress::v4(10, 0, 0, 1));
        let _ = addrs.remove(0);
        addrs.truncate(1);
        addrs.extend_from_slice(&[]).unwrap();
        addrs.clear();
    });
    let _: &[IpCidr] = iface.ip_addrs();
    let _: (Option<Ipv4Address>, Option<Ipv6Address>) = (iface.ipv4_addr(), iface.ipv6_addr());
    let _: Option<IpAddress> = iface.get_source_address(&IpAddress::v4(10, 0, 0, 2));
    let _: Option<Ipv4Address> = iface.get_source_address_ipv4(&Ipv4Address::LOCALHOST);
    let _: Ipv6Address = iface.get_source_address_ipv6(&Ipv6Address::LOCALHOST);
    let _: [bool; 3] = [
        iface.has_ip_addr(IpAddress::v4(10, 0, 0, 1)),
        iface.has_ip_addr(Ipv4Address::LOCALHOST),
        iface.has_ip_addr(Ipv6Addr::LOCALHOST),
    ];
    let _: &Routes = iface.routes();
    let routes: &mut Routes = iface.routes_mut();
    let _: Std<Option<Route>, RouteTableFull> = routes.add_default_ipv4_route(Ipv4Address::new(10, 0, 0, 9));
    let _: Std<Option<Route>, RouteTableFull> = routes.add_default_ipv6_route(Ipv6Address::LOCALHOST);
    let _: [Option<Route>; 2] = [routes.remove_default_ipv4_route(), routes.remove_default_ipv6_route()];
    routes.update(|list| {
        list.push(Route::new_ipv4_gateway(Ipv4Address::LOCALHOST)).unwrap();
        list.push(Route::new_ipv6_gateway(Ipv6Address::LOCALHOST)).unwrap();
        let cidr = IpCidr::new(IpAddress::v4(10, 1, 0, 0), 16);
        let via_router = IpAddress::v4(10, 0, 0, 9);
        let _ = list.push(Route { cidr, via_router, preferred_until: None, expires_at: Some(now) });
    });
    iface.set_any_ip(true);
    let _: bool = iface.any_ip();
    iface.set_reassembly_timeout(Duration::from_secs(1));
    let _: Duration = iface.reassembly_timeout();
    iface.join_multicast_group(Ipv4Address::new(224, 1, 1, 1))?;
    iface.join_multicast_group(IpAddress::v4(224, 1, 1, 1))?;
    iface.leave_multicast_group(Ipv6Address::new(0xff02, 0, 0, 0, 0, 0, 0, 5))?;
    let _: bool = iface.has_multicast_group(Ipv4Address::new(224, 1, 1, 1));
    fails(&MulticastError::GroupTableFull);
    fails(&MulticastError::Unaddressable);
    fails(&RouteTableFull);
    let _: bool = iface.poll(now, device, sockets) == PollResult::SocketStateChanged;
    let _: PollResult = iface.poll_egress(now, device, sockets);
    match iface.poll_ingress_single(now, device, sockets) {
        PollIngressSingleResult::None => {}
        PollIngressSingleResult::PacketProcessed => {}
        PollIngressSingleResult::SocketStateChanged => {}
    }
    iface.poll_maintenance(now);
    let _: Option<Instant> = iface.poll_at(now, sockets);
    let _: Option<Duration> = iface.poll_delay(now, sockets);
    let iface = std::thread::spawn(move || iface).join();
    Ok(())
}

fn of_devices(now: Instant) {
    let loopback = Loopback::new(Medium::Ip);
    shown(&format!("{loopback:?}"));
    let mut faulty = FaultInjector::new(loopback, 7);
    let _: [u8; 2] = [faulty.corrupt_chance(), faulty.drop_chance()];
    let _: (usize, u64, u64, Duration) =
        (faulty.max_packet_size(), faulty.max_tx_rate(), faulty.max_rx_rate(), faulty.bucket_interval());
    faulty.set_corrupt_chance(1);
    faulty.set_drop_chance(1);
    faulty.set_max_packet_size(1);
    faulty.set_max_tx_rate(1);
    faulty.set_max_rx_rate(1);
    faulty.set_bucket_interval(Duration::from_millis(1));
    let file: Vec<u8> = Vec::new();
    let mut pcap = PcapWriter::new(faulty, file, PcapMode::Both);
    let _: &FaultInjector<Loopback> = pcap.get_ref();
    let _: &mut FaultInjector<Loopback> = pcap.get_mut();
    let _ = [PcapMode::Both, PcapMode::RxOnly, PcapMode::TxOnly];
    let _ = [
        PcapLinkType::Ethernet,
        PcapLinkType::Ip,
        PcapLinkType::Ieee802154WithoutFcs,
        PcapLinkType::Unknown(3),
    ];
    let mut traced =
        Tracer::new(pcap, |timestamp: Instant, packet: TracerPacket| println!("{timestamp} {packet}"));
    let _: &PcapWriter<FaultInjector<Loopback>, Vec<u8>> = traced.get_ref();
    traced.get_mut();
    let inner = traced.into_inner();
    let boxed: PcapWriter<Loopback, Box<dyn std::io::Write>> = PcapWriter::new(
        Loopback::new(Medium::Ip),
        Box::new(std::io::sink()) as Box<dyn std::io::Write>,
        PcapMode::Both,
    );
    let plain: Tracer<Loopback> = Tracer::new(Loopback::new(Medium::Ip), write_out);
    plain.into_inner();
    struct Sink;
    impl PcapSink for Sink {
        fn write(&mut self, data: &[u8]) {}
    }
    let mut sink = Sink;
    sink.global_header(PcapLinkType::Ip);
    sink.packet_header(now, 3);
    sink.packet(now, b"abc");
    sink.write_u16(1);
    sink.write_u32(1);
    sink.flush();
    let _ = [TracerDirection::RX, TracerDirection::TX];
}

fn write_out(timestamp: Instant, packet: TracerPacket) {
    println!("{timestamp} {packet}");
}

/// A device as a user writes it.
struct Own(Vec<Vec<u8>>);
struct OwnRx(Vec<u8>);
struct OwnTx<'a>(&'a mut Vec<Vec<u8>>);

impl Device for Own {
    type RxToken<'a>
        = OwnRx
    where
        Self: 'a;
    type TxToken<'a>
        = OwnTx<'a>
    where
        Self: 'a;

    fn receive(&mut self, _timestamp: Instant) -> Option<(Self::RxToken<'_>, Self::TxToken<'_>)> {
        let packet = self.0.pop()?;
        Some((OwnRx(packet), OwnTx(&mut self.0)))
    }

    fn transmit(&mut self, _timestamp: Instant) -> Option<Self::TxToken<'_>> {
        Some(OwnTx(&mut self.0))
    }

    fn capabilities(&self) -> DeviceCapabilities {
        let mut capabilities = DeviceCapabilities::default();
        capabilities.medium = Medium::Ip;
        capabilities.max_transmission_unit = 1500;
        capabilities.max_burst_size = Some(1);
        capabilities.checksum = ChecksumCapabilities::ignored();
        capabilities.checksum.ipv4 = Checksum::Both;
        let caps = &mut capabilities.checksum;
        (caps.udp, caps.tcp, caps.icmpv4, caps.icmpv6) =
            (Checksum::Rx, Checksum::Tx, Checksum::None, Checksum::Both);
        let _: (usize, bool, bool) = (capabilities.ip_mtu(), Checksum::Rx.rx(), Checksum::Rx.tx());
        is(&Checksum::default());
        match capabilities.medium {
            Medium::Ethernet => {}
            Medium::Ip => {}
            Medium::Ieee802154 => {}
        }
        let _ = Medium::default();
        capabilities
    }
}

impl RxToken for OwnRx {
    fn consume<R, F>(self, f: F) -> R
    where
        F: FnOnce(&[u8]) -> R,
    {
        f(&self.0)
    }
}

impl TxToken for OwnTx<'_> {
    fn consume<R, F>(self, len: usize, f: F) -> R
    where
        F: FnOnce(&mut [u8]) -> R,
    {
        let mut packet = vec![0; len];
        let result = f(&mut packet);
        self.0.push(packet);
        result
    }

    fn set_meta(&mut self, _meta: PacketMeta) {}
}

fn of_own(now: Instant) {
    let mut device = Own(Vec::new());
    let mut sockets = SocketSet::new(vec![]);
    let _ = of_interface(&mut device, &mut sockets, now);
    let _ = of_interface(&mut &mut device, &mut sockets, now);
    if let Some(token) = device.transmit(now) {
        token.consume(3, |packet| packet.fill(1));
    }
    if let Some((rx, mut tx)) = device.receive(now) {
        let meta: PacketMeta = rx.meta();
        tx.set_meta(meta);
        rx.consume(|packet| packet.len());
    }
}

#[test]
fn each_name_is_there() {}
