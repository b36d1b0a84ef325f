// Made from crates/sock_bench/src/transfer.rt by rust/translate: change it there.
//! Bytes through a connection: two hosts, whose applications read and write, and the packets between them.

use crate::plan::Plan;
use smoltcp_proved::kit::alloc::{AllocError, Global};
use smoltcp_proved::kit::{Vec, vec};
use smoltcp_proved::proved::bench_parts::clock::Clock;
use smoltcp_proved::proved::bench_parts::digest::Digest;
use smoltcp_proved::proved::bench_parts::random::Random;
use smoltcp_proved::proved::bench_parts::wire::{Fate, Wire, flip};
use smoltcp_proved::proved::host_context::{
    Interface, Outbox, Seeded, dispatch_tcp, receive_tcp, take_packets,
};
use smoltcp_proved::proved::host_guard::guard::{KEEP_ALIVE, TIMEOUT};
use smoltcp_proved::proved::smoltcp_socket::storage::RingBuffer;
use smoltcp_proved::proved::smoltcp_socket::tcp::{Socket, State};
use smoltcp_proved::proved::smoltcp_socket::time::Instant;
use smoltcp_proved::proved::smoltcp_socket::wire::{IpAddress, IpEndpoint, IpListenEndpoint, Ipv4Address};
use smoltcp_proved::proved::smoltcp_socket::{Context, PollAt};

const CLIENT: Ipv4Address = smoltcp_proved::kit::ipv4([10, 0, 0, 1]);

const SERVER: Ipv4Address = smoltcp_proved::kit::ipv4([10, 0, 0, 2]);

// No buffer is longer.
const LONGEST: usize = 1 << 20;

// A transfer ends after so many moments, whatever is left of it.
const MOMENTS: u32 = 4_000_000;

// How many segments one side emits at one moment.
const TURNS: u32 = 1024;

// How many writes or reads one side makes at one moment.
const CALLS: u32 = 4096;

type Host = Interface<Seeded, Outbox>;

/// One end of the connection, and what its application has done.
struct End<'a> {
    host: Host,
    socket: Socket<'a, Clock>,
    total: usize,
    sent: usize,
    received: usize,
}

/// Runs a transfer, and adds to the digest what each side read and how it ended.
pub fn transfer(
    alloc: Global,
    plan: &Plan,
    source: &[u8],
    random: &mut Random,
    digest: &mut Digest,
) -> Result<(), AllocError> {
    let size = plan.buffer.min(LONGEST);
    let (mut rx_a, mut tx_a) = (vec![in alloc; 0u8; size]?, vec![in alloc; 0u8; size]?);
    let (mut rx_b, mut tx_b) = (vec![in alloc; 0u8; size]?, vec![in alloc; 0u8; size]?);
    let (rx_a, tx_a) = (rx_a.as_mut_slice(), tx_a.as_mut_slice());
    let (rx_b, tx_b) = (rx_b.as_mut_slice(), tx_b.as_mut_slice());
    let [one, other] = plan.total;
    let mut client = End::new(alloc, CLIENT, plan, one, (rx_a, tx_a), random.word());
    let mut server = End::new(alloc, SERVER, plan, other, (rx_b, tx_b), random.word());
    open(plan, &mut client, &mut server);
    run(alloc, plan, (&mut client, &mut server), source, random, digest)?;
    client.add_to(digest);
    server.add_to(digest);
    Ok(())
}

impl<'a> End<'a> {
    fn new(
        alloc: Global,
        addr: Ipv4Address,
        plan: &Plan,
        total: usize,
        buffers: (&'a mut [u8], &'a mut [u8]),
        seed: u32,
    ) -> End<'a> {
        let state = u64::from(seed);
        let mut host = Interface::new(addr, Seeded { state }, Outbox::new(alloc));
        host.set_mtu(plan.mtu);
        let (rx, tx) = buffers;
        let clock = if plan.stamped { Some(Clock) } else { None };
        let mut socket = Socket::closed(RingBuffer::new(rx), RingBuffer::new(tx), clock);
        socket.set_congestion_control(plan.congestion);
        socket.set_timeout(Some(TIMEOUT));
        socket.set_keep_alive(Some(KEEP_ALIVE));
        End { host, socket, total, sent: 0, received: 0 }
    }
}

fn open(plan: &Plan, client: &mut End<'_>, server: &mut End<'_>) {
    let addr = if plan.v6 { IpAddress::Ipv6(server.host.ipv6_addr()) } else { IpAddress::Ipv4(SERVER) };
    let _ = server.socket.listen(port(7));
    let remote = IpEndpoint { addr, port: 7 };
    let _ = client.socket.connect(&mut client.host, remote, port(49152));
}

fn port(port: u16) -> IpListenEndpoint {
    IpListenEndpoint { addr: None, port }
}

// Moment after moment, until both are closed.
fn run(
    alloc: Global,
    plan: &Plan,
    ends: (&mut End<'_>, &mut End<'_>),
    source: &[u8],
    random: &mut Random,
    digest: &mut Digest,
) -> Result<(), AllocError> {
    let (client, server) = ends;
    let mut there = Wire::new(alloc, plan.faults);
    let mut back = Wire::new(alloc, plan.faults);
    let mut scratch = vec![in alloc; 0u8; plan.read.min(LONGEST)]?;
    let mut now = 0;
    for _ in 0..MOMENTS {
        client.host.set_millis(now);
        server.host.set_millis(now);
        let reads = random.happens(plan.reads);
        client.write(plan, source, random);
        server.write(plan, source, random);
        if reads {
            client.read(scratch.as_mut_slice(), digest);
            server.read(scratch.as_mut_slice(), digest);
        }
        let went = client.pass(server, &mut there, random)?;
        let came = server.pass(client, &mut back, random)?;
        if client.is_done() && server.is_done() {
            break;
        }
        now = if went || came || !reads { now.saturating_add(1) } else { next_moment(now, client, server) };
    }
    digest.number(u64::from(now));
    Ok(())
}

// When one of them wants to be dispatched: the next millisecond at the earliest.
fn next_moment(now: u32, client: &End<'_>, server: &End<'_>) -> u32 {
    let next = now.saturating_add(1);
    match client.poll_at().min(server.poll_at()) {
        PollAt::Now | PollAt::Ingress => next,
        PollAt::Time(at) => next.max(millis_of(at)),
    }
}

// The first whole millisecond that is not before the moment.
fn millis_of(at: Instant) -> u32 {
    let millis = at.micros.max(0).saturating_add(999) / 1000;
    u32::try_from(millis).unwrap_or(u32::MAX)
}

impl End<'_> {
    // Writes as much as the socket takes, in pieces of odd sizes, and closes behind the last.
    fn write(&mut self, plan: &Plan, source: &[u8], random: &mut Random) {
        if !self.socket.may_send() {
            return;
        }
        for _ in 0..CALLS {
            let left = self.total.saturating_sub(self.sent);
            if left == 0 {
                self.socket.close();
                break;
            }
            let piece = random.piece(source, plan.write.min(left));
            let count = self.socket.send_slice(piece).unwrap_or(0);
            self.sent = self.sent.saturating_add(count);
            if count < piece.len() {
                break;
            }
        }
    }

    fn read(&mut self, scratch: &mut [u8], digest: &mut Digest) {
        for _ in 0..CALLS {
            match self.socket.recv_slice(scratch) {
                Ok(count) if count > 0 => {
                    digest.bytes(&scratch[..count.min(scratch.len())]);
                    self.received = self.received.saturating_add(count);
                }
                _ => break,
            }
        }
    }

    fn poll_at(&self) -> PollAt {
        self.socket.poll_at(&self.host)
    }

    fn is_due(&self) -> bool {
        match self.poll_at() {
            PollAt::Now => true,
            PollAt::Time(at) => at <= self.host.now(),
            PollAt::Ingress => false,
        }
    }

    fn is_done(&self) -> bool {
        matches!(self.socket.state(), State::Closed | State::TimeWait)
    }

    // Emits what is due, and lets it arrive at the other end; whether there was anything.
    fn pass(&mut self, to: &mut End<'_>, wire: &mut Wire, random: &mut Random) -> Result<bool, AllocError> {
        for _ in 0..TURNS {
            if !self.is_due() {
                break;
            }
            dispatch_tcp(&mut self.socket, &mut self.host)?;
        }
        let mut passed = false;
        let held = wire.held();
        for packet in take_packets(&mut self.host) {
            passed = true;
            to.arrive(packet, wire, random)?;
        }
        for packet in held {
            passed = true;
            receive_tcp(&mut to.socket, &mut to.host, packet.as_slice())?;
        }
        Ok(passed)
    }

    fn arrive(
        &mut self,
        mut packet: Vec<u8>,
        wire: &mut Wire,
        random: &mut Random,
    ) -> Result<(), AllocError> {
        match wire.fate(random) {
            Fate::Lost => return Ok(()),
            Fate::Late => return wire.hold(packet),
            Fate::Twice => {
                receive_tcp(&mut self.socket, &mut self.host, packet.as_slice())?;
            }
            Fate::Flipped => flip(&mut packet, random),
            Fate::Arrives => {}
        }
        receive_tcp(&mut self.socket, &mut self.host, packet.as_slice())?;
        Ok(())
    }

    fn add_to(&self, digest: &mut Digest) {
        digest.number(self.sent as u64);
        digest.number(self.received as u64);
        digest.bytes(self.socket.state().name().as_bytes());
    }
}
