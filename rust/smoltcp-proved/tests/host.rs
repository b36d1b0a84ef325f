//! Hosts with smoltcp's names: two on a wire, and one that talks with itself.
use smoltcp_proved::iface::{
    Config, HardwareAddress, Interface, PollResult, SocketHandle, SocketSet, SocketStorage,
};
use smoltcp_proved::phy::{Device, DeviceCapabilities, Loopback, Medium, RxToken, TxToken};
use smoltcp_proved::socket::{tcp, udp};
use smoltcp_proved::storage::{PacketMetadata, RingBuffer};
use smoltcp_proved::time::{Duration, Instant};
use smoltcp_proved::wire::{IpAddress, IpCidr};
use std::cell::RefCell;
use std::collections::VecDeque;
use std::rc::Rc;

type Queue = Rc<RefCell<VecDeque<Vec<u8>>>>;

/// One end of a wire.
struct End {
    arrived: Queue,
    sent: Queue,
}

struct Arrived(Vec<u8>);
struct Room(Queue);

impl RxToken for Arrived {
    fn consume<R, F: FnOnce(&[u8]) -> R>(self, f: F) -> R {
        f(&self.0)
    }
}

impl TxToken for Room {
    fn consume<R, F: FnOnce(&mut [u8]) -> R>(self, len: usize, f: F) -> R {
        let mut packet = vec![0; len];
        let result = f(&mut packet);
        self.0.borrow_mut().push_back(packet);
        result
    }
}

impl Device for End {
    type RxToken<'a> = Arrived;
    type TxToken<'a> = Room;

    fn receive(&mut self, _: Instant) -> Option<(Arrived, Room)> {
        Some((Arrived(self.arrived.borrow_mut().pop_front()?), Room(self.sent.clone())))
    }
    fn transmit(&mut self, _: Instant) -> Option<Room> {
        Some(Room(self.sent.clone()))
    }
    fn capabilities(&self) -> DeviceCapabilities {
        let mut capabilities = DeviceCapabilities::default();
        capabilities.max_transmission_unit = 576;
        capabilities.loops_back = false;
        capabilities
    }
}

fn interface(device: &mut impl Device, addr: IpAddress) -> Interface {
    let mut config = Config::new(HardwareAddress::Ip);
    config.random_seed = 7;
    let mut iface = Interface::new(config, device, Instant::ZERO);
    iface.update_ip_addrs(|addrs| addrs.push(IpCidr::new(addr, 24)).expect("room for an address"));
    iface
}

fn wire() -> [(End, Interface, SocketSet<'static>); 2] {
    let (there, back) = (Queue::default(), Queue::default());
    let ends = [End { arrived: back.clone(), sent: there.clone() }, End { arrived: there, sent: back }];
    let mut last = 0;
    ends.map(|mut end| {
        last += 1;
        let iface = interface(&mut end, IpAddress::v4(10, 0, 0, last));
        (end, iface, SocketSet::new(vec![]))
    })
}

fn tcp_socket() -> tcp::Socket<'static> {
    let buffer = || RingBuffer::new(vec![0; 2000]);
    tcp::Socket::new(buffer(), buffer())
}

fn udp_socket() -> udp::Socket<'static> {
    let buffer = || udp::PacketBuffer::new(vec![PacketMetadata::EMPTY; 4], vec![0; 1000]);
    udp::Socket::new(buffer(), buffer())
}

#[test]
fn a_stream_passes_between_two_hosts() {
    let [(mut da, mut a, mut of_a), (mut db, mut b, mut of_b)] = wire();
    let server = of_b.add(tcp_socket());
    of_b.get_mut::<tcp::Socket>(server).listen(80).expect("a closed socket listens");
    let client = of_a.add(tcp_socket());
    let socket = of_a.get_mut::<tcp::Socket>(client);
    socket.connect(a.context(), (IpAddress::v4(10, 0, 0, 2), 80), 49152).expect("a closed socket connects");
    let text: Vec<u8> = (0..20_000u32).map(|n| n as u8).collect();
    let (mut now, mut sent, mut got) = (Instant::ZERO, 0, Vec::new());
    while got.len() < text.len() && now < Instant::from_secs(60) {
        let socket = of_a.get_mut::<tcp::Socket>(client);
        if socket.can_send() && sent < text.len() {
            sent += socket.send_slice(&text[sent..]).expect("an open socket sends");
        }
        let did = [a.poll(now, &mut da, &mut of_a), b.poll(now, &mut db, &mut of_b)];
        let socket = of_b.get_mut::<tcp::Socket>(server);
        if socket.can_recv() {
            socket.recv(|bytes| (bytes.len(), got.extend_from_slice(bytes))).expect("bytes are there");
        }
        if did == [PollResult::None; 2] {
            let delays = [a.poll_delay(now, &of_a), b.poll_delay(now, &of_b)];
            now += delays
                .into_iter()
                .flatten()
                .min()
                .unwrap_or(Duration::from_millis(1))
                .max(Duration::from_millis(1));
        }
    }
    assert_eq!(got, text);
}

#[test]
fn a_datagram_is_answered() {
    let [(mut da, mut a, mut of_a), (mut db, mut b, mut of_b)] = wire();
    let (here, there) = (of_a.add(udp_socket()), of_b.add(udp_socket()));
    of_a.get_mut::<udp::Socket>(here).bind(5000).expect("a socket that is not bound");
    of_b.get_mut::<udp::Socket>(there).bind(53).expect("a socket that is not bound");
    let socket = of_a.get_mut::<udp::Socket>(here);
    socket.send_slice(b"which name?", (IpAddress::v4(10, 0, 0, 2), 53)).expect("room");
    a.poll(Instant::ZERO, &mut da, &mut of_a);
    b.poll(Instant::ZERO, &mut db, &mut of_b);
    let socket = of_b.get_mut::<udp::Socket>(there);
    let mut asked = [0; 20];
    let (count, from) = socket.recv_slice(&mut asked).expect("a datagram is there");
    assert_eq!((&asked[..count], from.endpoint.to_string().as_str()), (&b"which name?"[..], "10.0.0.1:5000"));
    socket.send_slice(b"this one", from.endpoint).expect("room");
    b.poll(Instant::ZERO, &mut db, &mut of_b);
    a.poll(Instant::ZERO, &mut da, &mut of_a);
    let (bytes, from) = of_a.get_mut::<udp::Socket>(here).recv().expect("a datagram is there");
    assert_eq!((bytes, from.endpoint.port), (&b"this one"[..], 53));
    assert_eq!(a.poll_at(Instant::ZERO, &of_a), None);
}

#[test]
fn a_host_talks_with_itself() {
    let mut device = Loopback::new(Medium::Ip);
    let mut iface = interface(&mut device, IpAddress::v4(127, 0, 0, 1));
    let mut sockets = SocketSet::new(vec![]);
    let (server, client) = (sockets.add(tcp_socket()), sockets.add(tcp_socket()));
    sockets.get_mut::<tcp::Socket>(server).listen(80).expect("a closed socket listens");
    let remote = (IpAddress::v4(127, 0, 0, 1), 80);
    sockets
        .get_mut::<tcp::Socket>(client)
        .connect(iface.context(), remote, 49152)
        .expect("a closed socket connects");
    while iface.poll(Instant::ZERO, &mut device, &mut sockets) != PollResult::None {}
    assert!(sockets.get::<tcp::Socket>(client).state() == tcp::State::Established);
    assert!(sockets.get::<tcp::Socket>(server).state() == tcp::State::Established);
    // nobody listens at another port
    let other = sockets.add(tcp_socket());
    let remote = (IpAddress::v4(127, 0, 0, 1), 81);
    sockets
        .get_mut::<tcp::Socket>(other)
        .connect(iface.context(), remote, 49153)
        .expect("a closed socket connects");
    while iface.poll(Instant::ZERO, &mut device, &mut sockets) != PollResult::None {}
    assert!(sockets.get::<tcp::Socket>(other).state() == tcp::State::Closed);
}

#[test]
fn a_packet_from_an_own_address_is_forged_on_a_network() {
    let queue = Queue::default();
    let mut device = End { arrived: queue.clone(), sent: queue };
    let mut iface = interface(&mut device, IpAddress::v4(10, 0, 0, 1));
    let mut sockets = SocketSet::new(vec![]);
    let (server, client) = (sockets.add(tcp_socket()), sockets.add(tcp_socket()));
    sockets.get_mut::<tcp::Socket>(server).listen(80).expect("a closed socket listens");
    let remote = (IpAddress::v4(10, 0, 0, 1), 80);
    sockets
        .get_mut::<tcp::Socket>(client)
        .connect(iface.context(), remote, 49152)
        .expect("a closed socket connects");
    while iface.poll(Instant::ZERO, &mut device, &mut sockets) != PollResult::None {}
    assert!(sockets.get::<tcp::Socket>(server).state() == tcp::State::Listen);
    assert_eq!(iface.host_mut().counters().source, 1);
}

#[test]
fn handles_outlive_growth_and_are_used_again() {
    let mut sockets = SocketSet::new(vec![]);
    let handles: Vec<SocketHandle> = (0..20).map(|_| sockets.add(udp_socket())).collect();
    for (handle, port) in handles.iter().zip(100..) {
        sockets.get_mut::<udp::Socket>(*handle).bind(port).expect("a socket that is not bound");
    }
    let more = sockets.add(udp_socket());
    for (handle, port) in handles.iter().zip(100..) {
        assert_eq!(sockets.get::<udp::Socket>(*handle).endpoint().port, port);
    }
    sockets.remove(handles[3]);
    assert_eq!(sockets.iter().count(), 20);
    assert_eq!(sockets.add(tcp_socket()), handles[3]);
    assert!(sockets.get::<tcp::Socket>(handles[3]).state() == tcp::State::Closed);
    assert_eq!(more.to_string(), "#20");
}

#[test]
#[should_panic(expected = "full SocketSet")]
fn a_set_has_no_more_sockets_than_places() {
    let mut sockets = SocketSet::new([SocketStorage::EMPTY; 2]);
    for _ in 0..3 {
        sockets.add(udp_socket());
    }
}
