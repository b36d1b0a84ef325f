// Made from crates/sock_bench/src/station.rt by rust/translate: change it there.
//! A host with many sockets, and the interface layer that serves them.

use smoltcp_proved::kit::Vec;
use smoltcp_proved::kit::alloc::{AllocError, Global};
use smoltcp_proved::proved::bench_parts::clock::Clock;
use smoltcp_proved::proved::bench_parts::conversation::{Role, Talk, service};
use smoltcp_proved::proved::bench_parts::digest::Digest;
use smoltcp_proved::proved::bench_parts::random::Random;
use smoltcp_proved::proved::bench_parts::wire::{Fate, Wire, flip};
use smoltcp_proved::proved::host_context::{Interface, Outbox, Seeded, dispatch_tcp, take_packets};
use smoltcp_proved::proved::host_guard::Guard;
use smoltcp_proved::proved::segment_wire::packet;
use smoltcp_proved::proved::smoltcp_socket::tcp::{Socket, State};
use smoltcp_proved::proved::smoltcp_socket::wire::{IpRepr, Ipv4Address, TcpControl, TcpRepr};
use smoltcp_proved::proved::smoltcp_socket::{Context, PollAt};

// How many segments a socket emits at one moment at most; the guard allows no more.
const TURNS: u32 = 64;

/// A socket and its conversation.
pub struct Slot<'a> {
    pub socket: Socket<'a, Clock>,
    pub guard: Guard,
    pub talk: Talk,
}

impl<'a> Slot<'a> {
    /// A socket that has no conversation.
    pub fn new(socket: Socket<'a, Clock>, role: Role) -> Slot<'a> {
        Slot { socket, guard: Guard::new(), talk: Talk::new(role) }
    }

    /// Waits for a request.
    pub fn listen(&mut self) {
        self.socket.abort();
        self.begin(0, 0);
        let _ = self.socket.listen(service());
    }

    /// Begins a conversation of so many bytes.
    pub fn begin(&mut self, request: usize, answer: usize) {
        self.guard = Guard::new();
        self.talk.begin(request, answer);
    }

    /// Whether the client may begin another one; it counts what came of the last.
    pub fn is_idle(&self) -> bool {
        self.talk.role == Role::Client && self.socket.state() == State::Closed
    }
}

/// A host and its sockets.
pub struct Station<'a> {
    pub host: Interface<Seeded, Outbox>,
    pub slots: Vec<Slot<'a>>,
    // packets that no socket took
    refused: u64,
}

impl<'a> Station<'a> {
    /// A host without sockets.
    pub fn new(alloc: Global, addr: Ipv4Address, seed: u32) -> Station<'a> {
        let state = u64::from(seed);
        Station {
            host: Interface::new(addr, Seeded { state }, Outbox::new(alloc)),
            slots: Vec::new(alloc),
            refused: 0,
        }
    }

    /// Keeps the sockets of the server open.
    pub fn listen(&mut self) {
        for slot in &mut self.slots {
            if slot.talk.role == Role::Server
                && matches!(slot.socket.state(), State::Closed | State::TimeWait)
            {
                slot.listen();
            }
        }
    }

    /// Lets the applications read and write, and the sockets emit what is due.
    pub fn serve(
        &mut self,
        scratch: &mut [u8],
        source: &[u8],
        random: &mut Random,
        digest: &mut Digest,
    ) -> Result<(), AllocError> {
        for slot in &mut self.slots {
            slot.guard.watch(&mut slot.socket, self.host.now());
            slot.talk.serve(&mut slot.socket, scratch, source, random, digest);
            emit(slot, &mut self.host)?;
        }
        Ok(())
    }

    /// Lets what the host emitted arrive at the other.
    pub fn pass(
        &mut self,
        to: &mut Station<'_>,
        wire: &mut Wire,
        random: &mut Random,
    ) -> Result<(), AllocError> {
        let held = wire.held();
        for packet in take_packets(&mut self.host) {
            to.arrive(packet, wire, random)?;
        }
        for packet in held {
            to.receive(packet.as_slice())?;
        }
        Ok(())
    }

    fn arrive(
        &mut self,
        mut packet: Vec<u8>,
        wire: &mut Wire,
        random: &mut Random,
    ) -> Result<(), AllocError> {
        match wire.fate(random) {
            Fate::Lost => return Ok(()),
            Fate::Late => return wire.hold(packet),
            Fate::Twice => self.receive(packet.as_slice())?,
            Fate::Flipped => flip(&mut packet, random),
            Fate::Arrives => {}
        }
        self.receive(packet.as_slice())
    }

    /// Takes a packet: a connection comes before a socket that listens, and what no socket takes is answered by an RST.
    pub fn receive(&mut self, bytes: &[u8]) -> Result<(), AllocError> {
        let caps = self.host.checksum_caps();
        let Ok((ip, repr)) = packet::parse_tcp(bytes, &caps) else {
            self.refused = self.refused.wrapping_add(1);
            return Ok(());
        };
        self.take(&ip, &repr)
    }

    fn take(&mut self, ip: &IpRepr, repr: &TcpRepr<'_>) -> Result<(), AllocError> {
        if repr.payload.len() > 65535 || self.give(ip, repr, false)? || self.give(ip, repr, true)? {
            return Ok(());
        }
        self.refused = self.refused.wrapping_add(1);
        refuse(&mut self.host, ip, repr)
    }

    fn give(&mut self, ip: &IpRepr, repr: &TcpRepr<'_>, listening: bool) -> Result<bool, AllocError> {
        for slot in &mut self.slots {
            if (slot.socket.state() == State::Listen) == listening
                && slot.socket.accepts(&self.host, ip, repr)
            {
                process(slot, &mut self.host, ip, repr)?;
                return Ok(true);
            }
        }
        Ok(false)
    }

    /// Adds how many packets no socket took, and how each socket ended.
    pub fn add_to(&self, digest: &mut Digest) {
        digest.number(self.refused);
        for slot in &self.slots {
            slot.talk.add_to(digest);
            digest.bytes(slot.socket.state().name().as_bytes());
        }
    }
}

// An RST answers what no socket took, unless it is one.
fn refuse(host: &mut Interface<Seeded, Outbox>, ip: &IpRepr, repr: &TcpRepr<'_>) -> Result<(), AllocError> {
    if repr.control != TcpControl::Rst {
        let caps = host.checksum_caps();
        let (ip, reset) = Socket::rst_reply(ip, repr);
        host.outbox.emit_tcp(&ip, &reset, &caps)?;
    }
    Ok(())
}

fn process(
    slot: &mut Slot<'_>,
    host: &mut Interface<Seeded, Outbox>,
    ip: &IpRepr,
    repr: &TcpRepr<'_>,
) -> Result<(), AllocError> {
    if slot.socket.accepts(host, ip, repr) {
        let caps = host.checksum_caps();
        if let Some((ip, reply)) = slot.socket.process(host, ip, repr) {
            host.outbox.emit_tcp(&ip, &reply, &caps)?;
        }
    }
    Ok(())
}

// Emits what is due, as much as the guard allows at one moment.
fn emit(slot: &mut Slot<'_>, host: &mut Interface<Seeded, Outbox>) -> Result<(), AllocError> {
    for _ in 0..TURNS {
        if !is_due(slot, host) || !slot.guard.take_turn(host.now()) {
            break;
        }
        dispatch_tcp(&mut slot.socket, host)?;
    }
    Ok(())
}

fn is_due(slot: &Slot<'_>, host: &Interface<Seeded, Outbox>) -> bool {
    match slot.socket.poll_at(host) {
        PollAt::Now => true,
        PollAt::Time(at) => at <= host.now(),
        PollAt::Ingress => false,
    }
}
