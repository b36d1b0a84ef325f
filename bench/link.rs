//! A transfer between two sockets over a link that loses and delays packets, in virtual time (bench/plain).
use smoltcp_proved::proved::segment_wire;
use smoltcp_proved::proved::smoltcp_socket::storage::RingBuffer;
use smoltcp_proved::proved::smoltcp_socket::tcp::{CongestionControl, Rules, Socket, State};
use smoltcp_proved::proved::smoltcp_socket::time::{Duration, Instant};
use smoltcp_proved::proved::smoltcp_socket::wire::*;
use smoltcp_proved::proved::smoltcp_socket::{Context, PollAt};
use std::cmp::Reverse;
use std::collections::BinaryHeap;
use std::sync::atomic::{AtomicU32, Ordering};

const LONGEST: i64 = 600_000_000; // microseconds

static MILLIS: AtomicU32 = AtomicU32::new(0);

fn clock() -> u32 {
    MILLIS.load(Ordering::Relaxed)
}

struct Words(u64);

impl Words {
    fn next(&mut self) -> u32 {
        self.0 = self.0.wrapping_mul(6364136223846793005).wrapping_add(1442695040888963407);
        (self.0 >> 33) as u32
    }
}

struct Host {
    now: i64,
    last: u8,
    words: Words,
}

impl Host {
    fn v4(&self) -> Ipv4Address {
        Ipv4Address::new(10, 0, 0, self.last)
    }
}

impl Context for Host {
    fn now(&self) -> Instant {
        Instant::from_micros(self.now)
    }
    fn has_ip_addr(&self, addr: IpAddress) -> bool {
        addr == IpAddress::Ipv4(self.v4())
    }
    fn get_source_address(&self, _dst: &IpAddress) -> Option<IpAddress> {
        Some(IpAddress::Ipv4(self.v4()))
    }
    fn get_source_address_ipv4(&self, _dst: &Ipv4Address) -> Option<Ipv4Address> {
        Some(self.v4())
    }
    fn get_source_address_ipv6(&self, _dst: &Ipv6Address) -> Ipv6Address {
        Ipv6Address::UNSPECIFIED
    }
    fn is_broadcast(&self, _addr: &IpAddress) -> bool {
        false
    }
    fn ip_mtu(&self) -> usize {
        1500
    }
    fn checksum_caps(&self) -> ChecksumCapabilities {
        ChecksumCapabilities::default()
    }
    fn rand_u32(&mut self) -> u32 {
        self.words.next()
    }
}

/// Packets on their way: when each arrives, in which order it was sent, where, and its bytes.
struct Link {
    lost_of_thousand: u32,
    delay: i64,
    words: Words,
    waiting: BinaryHeap<(Reverse<i64>, Reverse<u64>, usize, Vec<u8>)>,
    sent: u64,
    lost: u64,
}

impl Link {
    fn put(&mut self, now: i64, to: usize, packet: Vec<u8>) {
        self.sent += 1;
        if self.words.next() % 1000 < self.lost_of_thousand {
            self.lost += 1;
        } else {
            self.waiting.push((Reverse(now + self.delay), Reverse(self.sent), to, packet));
        }
    }
}

struct Side<'a> {
    socket: Socket<'a>,
    host: Host,
    trace: bool,
}

fn packet_of(host: &Host, trace: bool, ip: &IpRepr, repr: &TcpRepr) -> Vec<u8> {
    if trace {
        let (now, last, len) = (host.now, host.last, repr.payload.len());
        let ack = repr.ack_number.map(|ack| ack.0);
        let (control, number, sack) = (repr.control, repr.seq_number.0, repr.sack_ranges);
        println!("{now} {last} {control:?} seq {number} ack {ack:?} len {len} sack {sack:?}");
    }
    let mut bytes = vec![0; ip.header_len() + ip.payload_len()];
    segment_wire::packet::emit_tcp(ip, repr, &mut bytes, &host.checksum_caps());
    bytes
}

impl Side<'_> {
    /// When the socket wants to be asked, in microseconds; none where never.
    fn due(&self) -> Option<i64> {
        match self.socket.poll_at(&self.host) {
            PollAt::Now => Some(self.host.now),
            PollAt::Time(at) => Some(at.micros),
            PollAt::Ingress => None,
        }
    }

    fn emit(&mut self) -> Option<Vec<u8>> {
        let (mut packet, trace) = (None, self.trace);
        let _ = self.socket.dispatch(&mut self.host, |host: &mut Host, (ip, repr): (IpRepr, TcpRepr)| {
            packet = Some(packet_of(host, trace, &ip, &repr));
            Ok::<(), ()>(())
        });
        packet
    }

    fn take(&mut self, packet: &[u8]) -> Option<Vec<u8>> {
        let caps = self.host.checksum_caps();
        let v4 = Ipv4Packet::new_checked(packet).ok()?;
        let ip = IpRepr::Ipv4(Ipv4Repr::parse(&v4, &caps).ok()?);
        let repr = segment_wire::tcp::parse(v4.payload(), &ip.src_addr(), &ip.dst_addr(), &caps).ok()?;
        if !self.socket.accepts(&self.host, &ip, &repr) {
            return None;
        }
        let (ip, repr) = self.socket.process(&mut self.host, &ip, &repr)?;
        Some(packet_of(&self.host, self.trace, &ip, &repr))
    }
}

fn main() {
    let words: Vec<String> = std::env::args().skip(1).collect();
    let [lost, delay, bytes, seed] = [0, 1, 2, 3].map(|i| words[i].parse::<u64>().expect("a number"));
    let (rfc, trace) = (words[4] == "rfc", words.last().is_some_and(|word| word == "trace"));
    let more = |i: usize, without| words.get(i).and_then(|word| word.parse::<usize>().ok()).unwrap_or(without);
    let (waits, buffer) = (more(5, 10), more(6, 1024) << 10);
    let mut buffers = vec![0u8; 4 * buffer];
    let mut pieces = buffers.chunks_exact_mut(buffer);
    let mut sides = [1u8, 2].map(|last| {
        let (rx, tx) = (pieces.next().expect("room"), pieces.next().expect("room"));
        let mut socket = Socket::new(RingBuffer::new(rx), RingBuffer::new(tx));
        if rfc {
            socket.set_rules(Rules::Rfc).expect("a new socket is not open");
        }
        socket.set_min_rto(Duration::from_millis(200));
        socket.set_ack_delay(Some(Duration::from_millis(waits as u64)));
        socket.set_congestion_control(CongestionControl::Reno);
        socket.set_tsval_generator(Some(clock));
        Side { socket, host: Host { now: 0, last, words: Words(last as u64) }, trace }
    });
    let link = Link {
        lost_of_thousand: lost as u32,
        delay: delay as i64,
        words: Words(seed),
        waiting: BinaryHeap::new(),
        sent: 0,
        lost: 0,
    };
    let server = IpEndpoint { addr: IpAddress::Ipv4(sides[1].host.v4()), port: 80 };
    sides[1].socket.listen(IpListenEndpoint { addr: None, port: 80 }).expect("a closed socket");
    let [client, _] = &mut sides;
    client.socket.connect(&mut client.host, server, IpListenEndpoint { addr: None, port: 50000 }).expect("closed");
    run(sides, link, bytes as usize);
}

fn run(mut sides: [Side<'_>; 2], mut link: Link, bytes: usize) {
    let (data, mut room) = (vec![7u8; 65536], vec![0u8; 65536]);
    let (mut now, mut sent, mut got) = (0i64, 0usize, 0usize);
    while got < bytes && now < LONGEST {
        while sides[1].socket.state() == State::Established && sent < bytes {
            let count = sides[1].socket.send_slice(&data[..data.len().min(bytes - sent)]).unwrap_or(0);
            sent += count;
            if count == 0 {
                break;
            }
        }
        for i in 0..2 {
            MILLIS.store((now / 1000) as u32, Ordering::Relaxed);
            sides[i].host.now = now;
            for _ in 0..4096 {
                if sides[i].due().is_none_or(|at| at > now) {
                    break;
                }
                let Some(packet) = sides[i].emit() else { break };
                link.put(now, 1 - i, packet);
            }
        }
        while let Ok(count @ 1..) = sides[0].socket.recv_slice(&mut room) {
            got += count;
        }
        let arrives = link.waiting.peek().map(|packet| packet.0.0);
        let Some(next) = sides.iter().filter_map(Side::due).map(|at| at.max(now + 1)).chain(arrives).min() else {
            println!("nothing goes on at {now} us, {got} of {bytes} bytes came");
            return;
        };
        now = now.max(next);
        if arrives.is_some_and(|at| at <= now) {
            let (_, _, i, packet) = link.waiting.pop().expect("peeked at");
            sides[i].host.now = now;
            if let Some(reply) = sides[i].take(&packet) {
                link.put(now, 1 - i, reply);
            }
        }
    }
    let rate = got as f64 / now.max(1) as f64;
    println!("{got} bytes in {:.3} s, {rate:.3} MB/s, {} of {} packets lost", now as f64 / 1e6, link.lost, link.sent);
}
