//! The conversations of hosted_bench between sockets with no host at all: no index, no guard, no bound, no timer that
//! is looked for, and no packet that is lost. What is left is what the sockets, the packets' sums and copies and the
//! applications take: no host can be quicker than this. Its sums are as slow as those of the other plain programs, so
//! it is compared with sock_bench and hosted_bench of one folder alone.
//!
//!     floor SEED SHARE [together]
//!
//! One conversation after another, between two sockets that lie in the cache; or together, as many at once as
//! hosted_bench has, over as many sockets.
use smoltcp_proved::proved::bench_parts::clock::Clock;
use smoltcp_proved::proved::bench_parts::conversation::{Role, Talk, service};
use smoltcp_proved::proved::bench_parts::digest::Digest;
use smoltcp_proved::proved::bench_parts::random::{Random, source};
use smoltcp_proved::proved::bench_parts::work::{BUFFER, PIECE, SIZES, Work, answer_len};
use smoltcp_proved::kit::HostRuntime;
use smoltcp_proved::proved::segment_wire;
use smoltcp_proved::proved::smoltcp_socket::Context;
use smoltcp_proved::proved::smoltcp_socket::storage::RingBuffer;
use smoltcp_proved::proved::smoltcp_socket::tcp::{Socket, State};
use smoltcp_proved::proved::smoltcp_socket::time::Instant;
use smoltcp_proved::proved::smoltcp_socket::wire::*;
use std::collections::VecDeque;

const MTU: usize = 1500;

struct Side {
    now: i64,
    addr: Ipv4Address,
    word: u64,
    out: Vec<u8>,
    len: usize,
}

impl Context for Side {
    fn now(&self) -> Instant {
        Instant::from_micros(self.now)
    }
    fn has_ip_addr(&self, addr: IpAddress) -> bool {
        addr == IpAddress::Ipv4(self.addr)
    }
    fn get_source_address(&self, _dst: &IpAddress) -> Option<IpAddress> {
        Some(IpAddress::Ipv4(self.addr))
    }
    fn get_source_address_ipv4(&self, _dst: &Ipv4Address) -> Option<Ipv4Address> {
        Some(self.addr)
    }
    fn get_source_address_ipv6(&self, _dst: &Ipv6Address) -> Ipv6Address {
        Ipv6Address::UNSPECIFIED
    }
    fn is_broadcast(&self, _addr: &IpAddress) -> bool {
        false
    }
    fn ip_mtu(&self) -> usize {
        MTU
    }
    fn checksum_caps(&self) -> ChecksumCapabilities {
        ChecksumCapabilities::default()
    }
    fn rand_u32(&mut self) -> u32 {
        self.word = self.word.wrapping_mul(6364136223846793005).wrapping_add(1442695040888963407);
        (self.word >> 33) as u32
    }
}

struct End<'a> {
    side: Side,
    socket: Socket<'a, Clock>,
    talk: Talk,
}

impl<'a> End<'a> {
    fn new(addr: Ipv4Address, role: Role) -> End<'a> {
        let buffer = || RingBuffer::new(Box::leak(vec![0u8; BUFFER].into_boxed_slice()) as &'a mut [u8]);
        let side = Side { now: 0, addr, word: 1, out: vec![0; MTU], len: 0 };
        End { side, socket: Socket::closed(buffer(), buffer(), None), talk: Talk::new(role) }
    }

    fn write(side: &mut Side, ip: &IpRepr, repr: &TcpRepr) {
        let caps = side.checksum_caps();
        side.len = ip.header_len() + ip.payload_len();
        segment_wire::packet::emit_tcp(ip, repr, &mut side.out[..side.len], &caps);
    }

    /// What the socket says next is in the room, as long as the answer.
    fn emit(&mut self) -> usize {
        self.side.len = 0;
        let _ = self.socket.dispatch(&mut self.side, |side: &mut Side, sent: (IpRepr, TcpRepr<'_>)| -> Result<(), ()> {
            End::write(side, &sent.0, &sent.1);
            Ok(())
        });
        self.side.len
    }

    /// Whether there is an answer in the room.
    fn receive(&mut self, packet: &[u8]) -> bool {
        let caps = self.side.checksum_caps();
        let Some((ip, bytes)) = segment_wire::packet::carried(packet, &caps) else { return false };
        let Ok(repr) = segment_wire::tcp::parse(bytes, &ip.src_addr(), &ip.dst_addr(), &caps) else { return false };
        if !self.socket.accepts(&self.side, &ip, &repr) {
            return false;
        }
        match self.socket.process(&mut self.side, &ip, &repr) {
            Some((ip, repr)) => {
                End::write(&mut self.side, &ip, &repr);
                true
            }
            None => false,
        }
    }

    fn serve(&mut self, scratch: &mut [u8], source: &[u8], random: &mut Random, digest: &mut Digest) {
        self.talk.serve_whole(&mut self.socket, scratch, source, random, digest);
    }
}

fn pass(from: &mut End, to: &mut End, packets: &mut usize) {
    loop {
        let len = from.emit();
        if len == 0 {
            break;
        }
        *packets += 1;
        if to.receive(&from.side.out[..len]) {
            *packets += 1;
            let len = to.side.len;
            from.receive(&to.side.out[..len]);
        }
    }
}

// One conversation under way: which client has it with which server.
struct Pair {
    client: usize,
    server: usize,
}

fn is_over(end: &End) -> bool {
    matches!(end.socket.state(), State::TimeWait | State::Closed)
}

fn main() {
    let words: Vec<String> = std::env::args().skip(1).collect();
    let (seed, share): (u32, usize) = (words[0].parse().expect("a seed"), words[1].parse().expect("a share"));
    let together = words.get(2).is_some_and(|word| word == "together");
    let mut random = Random::new(seed);
    let source = source(HostRuntime.alloc(), &mut random).expect("memory");
    let (mut digest, mut scratch) = (Digest::new(), [0u8; PIECE]);
    let (mut packets, mut had) = (0, 0);
    for [sockets, sleepers, conversations] in SIZES {
        let (clients, servers) = if together { (sockets - sleepers, sockets) } else { (1, 1) };
        let mut work = Work::new(conversations * share / 1000);
        let mut client: Vec<End> = (0..clients).map(|_| End::new(Ipv4Address::new(10, 0, 0, 1), Role::Client)).collect();
        let mut server: Vec<End> = (0..servers).map(|_| End::new(Ipv4Address::new(10, 0, 0, 2), Role::Server)).collect();
        let mut idle: Vec<usize> = (0..clients).collect();
        let mut rested: VecDeque<usize> = (0..servers).collect();
        let mut pairs: Vec<Pair> = Vec::new();
        let mut now = 0;
        while work.left > 0 || !pairs.is_empty() {
            now += 1000;
            while work.left > 0 && !idle.is_empty() {
                work.left -= 1;
                let (a, b) = (idle.pop().expect("a client"), rested.pop_front().expect("a server"));
                let pair = Pair { client: a, server: b };
                let (client, server) = (&mut client[pair.client], &mut server[pair.server]);
                client.talk.begin(20 + random.below(480) as usize, answer_len(&mut random));
                server.talk.begin(0, 0);
                let _ = server.socket.listen(service());
                let remote = IpEndpoint { addr: IpAddress::Ipv4(server.side.addr), port: service().port };
                let local = IpListenEndpoint { addr: None, port: work.next_port() };
                client.socket.connect(&mut client.side, remote, local).expect("a connection");
                pairs.push(pair);
            }
            for pair in &pairs {
                client[pair.client].side.now = now;
                server[pair.server].side.now = now;
                client[pair.client].serve(&mut scratch, &source, &mut random, &mut digest);
            }
            for pair in &pairs {
                pass(&mut client[pair.client], &mut server[pair.server], &mut packets);
            }
            for pair in &pairs {
                server[pair.server].serve(&mut scratch, &source, &mut random, &mut digest);
            }
            for pair in &pairs {
                pass(&mut server[pair.server], &mut client[pair.client], &mut packets);
            }
            pairs.retain(|pair| {
                let (client, server) = (&mut client[pair.client], &mut server[pair.server]);
                if !is_over(client) || !is_over(server) {
                    return true;
                }
                client.talk.add_to(&mut digest);
                had += 1;
                client.socket.abort();
                server.socket.abort();
                client.emit();
                server.emit();
                idle.push(pair.client);
                rested.push_back(pair.server);
                false
            });
        }
    }
    let each = packets as f64 / had as f64;
    println!("{:016x} of {} bytes, {each:.2} packets a conversation", digest.value(), digest.bytes);
}
