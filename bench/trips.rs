//! The round trips of c/bench/hosts.c over two hosts of net_host: a client of many asks with 100 bytes, and the server
//! sends back what it read. Each host asks `poll_at` once it has come to rest, as one does that sleeps. The same client
//! asks each time, or a random one.
//!
//!     trips COUNT same|random ROUNDS [DELAY]
//!
//! DELAY: how long an acknowledgement waits, in milliseconds, 10 without it. It prints how many packets a round trip
//! took; how long it took is for callgrind to tell, from runs of two lengths.
use smoltcp_proved::proved::bench_parts::clock::Clock;
use smoltcp_proved::proved::host_context::Seeded;
use smoltcp_proved::kit::HostRuntime;
use smoltcp_proved::proved::net_host::{GuardSettings, Interface, IpCidr, SocketHandle, SocketSet};
use smoltcp_proved::sockets::Socket;
use smoltcp_proved::proved::smoltcp_socket::storage::RingBuffer;
use smoltcp_proved::sockets::tcp;
use smoltcp_proved::proved::smoltcp_socket::time::{Duration, Instant};
use smoltcp_proved::proved::smoltcp_socket::wire::*;

const MTU: usize = 1500;
const MESSAGE: usize = 100;
const STEP: i64 = 100;
const WINDOW: usize = 8192;
const PORT: u16 = 7;
const FIRST_PORT: u16 = 10_000;

struct Host {
    interface: Interface<Seeded>,
    sockets: SocketSet<'static, Clock>,
    handles: Vec<SocketHandle>,
}

type Packets = Vec<Vec<u8>>;

fn address(last: u8) -> Ipv4Address {
    Ipv4Address::new(10, 0, 0, last)
}

impl Host {
    fn new(last: u8, count: usize) -> Host {
        let alloc = HostRuntime.alloc();
        let mut addresses = smoltcp_proved::kit::Vec::new(alloc);
        let _ = addresses.push(IpCidr { address: IpAddress::Ipv4(address(last)), prefix_len: 24 });
        let mut interface = Interface::new(addresses, Seeded { state: u64::from(last) });
        interface.set_guards(GuardSettings { timeout: None, ..GuardSettings::new() });
        let Ok(sockets) = SocketSet::new(alloc, count) else { panic!("no memory") };
        Host { interface, sockets, handles: Vec::new() }
    }

    fn add(&mut self, delay: Option<u64>) -> usize {
        let buffer = || RingBuffer::new(Box::leak(vec![0u8; WINDOW].into_boxed_slice()) as &'static mut [u8]);
        let mut socket = tcp::Socket::closed(buffer(), buffer(), None);
        if let Some(delay) = delay {
            socket.set_ack_delay(Some(Duration::from_millis(delay)));
        }
        let Ok(handle) = self.sockets.add(Socket::Tcp(socket)) else { panic!("a host without room") };
        self.handles.push(handle);
        self.handles.len() - 1
    }

    fn socket(&mut self, which: usize) -> &mut tcp::Socket<'static, Clock> {
        self.sockets.tcp_mut(self.handles[which]).expect("a socket")
    }

    /// Takes what has come, and says what there is to say.
    fn turn(&mut self, now: i64, came: &mut Packets, out: &mut Packets, serves: bool) {
        let now = Instant::from_micros(now);
        let mut room = [0u8; MTU];
        for packet in came.drain(..) {
            let count = self.interface.receive(&mut self.sockets, now, &packet, &mut room).unwrap_or(0);
            if count > 0 {
                out.push(room[..count].to_vec());
            }
        }
        if serves {
            self.echo();
        }
        loop {
            let count = self.interface.emit(&mut self.sockets, now, &mut room).unwrap_or(0);
            if count == 0 {
                break;
            }
            out.push(room[..count].to_vec());
        }
        std::hint::black_box(self.interface.poll_at(&self.sockets));
    }

    fn echo(&mut self) {
        let mut from = 0;
        let mut bytes = [0u8; 4 * MESSAGE];
        while let Some(place) = self.sockets.touched(from) {
            from = place + 1;
            let socket = self.socket(place);
            let count = socket.recv_slice(&mut bytes).unwrap_or(0);
            if count > 0 {
                let _ = socket.send_slice(&bytes[..count]);
            }
        }
    }
}

struct Pair {
    now: i64,
    client: Host,
    server: Host,
    there: Packets,
    back: Packets,
    packets: usize,
}

impl Pair {
    fn carry(&mut self, asking: usize) -> usize {
        let mut bytes = [0u8; MESSAGE];
        let mut answered = 0;
        self.client.turn(self.now, &mut self.back, &mut self.there, false);
        while !self.there.is_empty() || !self.back.is_empty() {
            self.packets += self.there.len();
            self.server.turn(self.now, &mut self.there, &mut self.back, true);
            self.packets += self.back.len();
            let heard = !self.back.is_empty();
            let room = Instant::from_micros(self.now);
            let mut reply = [0u8; MTU];
            for packet in std::mem::take(&mut self.back) {
                let client = &mut self.client;
                let count = client.interface.receive(&mut client.sockets, room, &packet, &mut reply).unwrap_or(0);
                if count > 0 {
                    self.there.push(reply[..count].to_vec());
                }
            }
            if heard && answered < MESSAGE {
                answered += self.client.socket(asking).recv_slice(&mut bytes[answered..]).unwrap_or(0);
            }
            self.client.turn(self.now, &mut Vec::new(), &mut self.there, false);
        }
        answered
    }
}

fn main() {
    let words: Vec<String> = std::env::args().skip(1).collect();
    let (count, rounds): (usize, usize) = (words[0].parse().expect("a count"), words[2].parse().expect("rounds"));
    let delay = words.get(3).map(|word| word.parse().expect("milliseconds"));
    let (client, server) = (Host::new(1, count), Host::new(2, count));
    let mut pair = Pair { now: 1_000_000, client, server, there: Vec::new(), back: Vec::new(), packets: 0 };
    for _ in 0..count {
        let which = pair.server.add(delay);
        let _ = pair.server.socket(which).listen(IpListenEndpoint { addr: None, port: PORT });
    }
    for i in 0..count {
        pair.now += STEP;
        let which = pair.client.add(delay);
        let remote = IpEndpoint { addr: IpAddress::Ipv4(address(2)), port: PORT };
        let local = IpListenEndpoint { addr: None, port: FIRST_PORT + i as u16 };
        let client = &mut pair.client;
        let socket = client.sockets.tcp_mut(client.handles[which]).expect("a socket");
        socket.connect(client.interface.context(), remote, local).expect("a connection");
        pair.carry(which);
        assert!(pair.client.socket(which).state() == tcp::State::Established);
    }
    let mut state = 1u64;
    pair.packets = 0;
    for _ in 0..rounds {
        state = state.wrapping_mul(6364136223846793005).wrapping_add(1442695040888963407);
        let which = if words[1] == "random" { (state >> 33) as usize % count } else { 0 };
        pair.now += STEP;
        assert!(pair.client.socket(which).send_slice(&[7; MESSAGE]) == Ok(MESSAGE));
        assert!(pair.carry(which) == MESSAGE);
    }
    println!("{:.2} packets a round trip", pair.packets as f64 / rounds as f64);
}
