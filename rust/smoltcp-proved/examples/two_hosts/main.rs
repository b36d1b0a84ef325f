// Made from crates/two_hosts/src/main.rt by rust/translate: change it there.
// What only clauses name is unused here, and some forms are those that a prover reads best.
#![allow(unused_imports, unused_variables, unused_must_use, dead_code, clippy::all)]
//! Two hosts in memory, each with a socket of every kind, over a wire that loses packets and lets some overtake
//! others. Host a talks to an echo server over TCP, asks for a name over UDP, pings, and sends a raw packet. All is
//! printed line by line.
//!
//! `two_hosts [SEED [LOSS]]`: another seed, and how many packets of a hundred get lost. `two_hosts --help` says so too.

use smoltcp_proved::kit::{HostRuntime, String, Vec};

mod applications;
mod context;
mod fault;
mod host;
mod memory;
mod packet;
mod trace;
mod wire;

use crate::applications::client::Client;
use crate::applications::server::Server;
use crate::applications::{EXPERIMENT, ask, client, server};
use crate::context::{A, B, MTU};
use crate::fault::Fault;
use crate::host::{FullHost, Host, Moment};
use crate::memory::Memory;
use crate::trace::Trace;
use crate::wire::Wire;
use smoltcp_proved::kit::alloc::{AllocError, Global};
use smoltcp_proved::kit::env;
use smoltcp_proved::proved::net_host::SocketSet;
use smoltcp_proved::sockets::storage::RingBuffer;
use smoltcp_proved::sockets::time::{Duration, Instant};
use smoltcp_proved::sockets::{PollAt, tcp};
use std::process::ExitCode;

// The seed where no argument gives one.
// Its run has a lost segment, three duplicate acknowledgements, a question that is sent again, and a FIN that is sent
// again in TIME-WAIT.
const SEED: u32 = 2565;

// How many packets of a hundred get lost where no argument says so.
const LOSS: u32 = 20;

// The run ends after so many rounds, whatever is left to do.
const ROUNDS: u32 = 10_000;

// At most so many packets arrive at one host and the other in a round; the rest arrive in the next.
const ARRIVALS: u32 = 100;

// A host sends at most so many packets in a round.
const EMISSIONS: u32 = 200;

// What `--help` prints.
const HELP: &str = "\
usage: two_hosts [SEED [LOSS]]

Runs two hosts in memory, each with a socket of every kind, over a wire that
loses packets and lets some overtake others, and prints what happens.

SEED  decides which packets get lost and how long the others take: 0 to
      4294967295, 2565 where it is left out
LOSS  how many packets of a hundred get lost: 0 to 100, 20 where it is left out
";

fn main() -> ExitCode {
    let rt = HostRuntime;
    match start(&rt) {
        Ok(()) => ExitCode::SUCCESS,
        Err(fault) => {
            let status = fault.status();
            let _ = rt.eprintln(fault);
            ExitCode::from(status)
        }
    }
}

// What the arguments ask for.
enum Task {
    Help,
    Simulate { seed: u32, loss: u32 },
}

fn start(rt: &HostRuntime) -> Result<(), Fault> {
    let written = match task_of(rt)? {
        Task::Help => rt.print(HELP),
        Task::Simulate { seed, loss } => {
            let trace = simulate(rt.alloc(), seed, loss)?;
            rt.print(trace.text.as_str())
        }
    };
    match written {
        Ok(()) => Ok(()),
        Err(_) => Err(Fault::Write),
    }
}

fn task_of(rt: &HostRuntime) -> Result<Task, Fault> {
    let Ok(mut args) = env::args(rt) else {
        return Err(Fault::Memory);
    };
    let _program = args.next();
    let (seed, loss, more) = (args.next(), args.next(), args.next());
    if more.is_some() {
        return Err(Fault::Usage);
    }
    if is_help(&seed) && loss.is_none() {
        return Ok(Task::Help);
    }
    Ok(Task::Simulate { seed: number(seed, SEED, u32::MAX)?, loss: number(loss, LOSS, 100)? })
}

fn is_help(word: &Option<String>) -> bool {
    match word {
        Some(word) => word.as_str() == "--help",
        None => false,
    }
}

// The number of an argument, up to `most`; where there is no argument, the other.
fn number(arg: Option<String>, otherwise: u32, most: u32) -> Result<u32, Fault> {
    let Some(text) = arg else {
        return Ok(otherwise);
    };
    match text.as_str().parse::<u32>() {
        Ok(number) if number <= most => Ok(number),
        _ => Err(Fault::Usage),
    }
}

// A peer that has been silent for so long is asked whether it is there.
const KEEP_ALIVE: Duration = Duration { micros: 15_000_000 };

// Makes the sockets of both hosts, and runs the hosts. The buffers outlive the sockets.
fn simulate(alloc: Global, seed: u32, loss: u32) -> Result<Trace, AllocError> {
    let (mut rx_a, mut tx_a) = ([0u8; 256], [0u8; 256]);
    let (mut rx_b, mut tx_b) = ([0u8; 256], [0u8; 256]);
    let (mut memory_a, mut memory_b) = (Memory::new(), Memory::new());
    let mut tcp_a = tcp::Socket::new(RingBuffer::new(&mut rx_a), RingBuffer::new(&mut tx_a));
    let mut tcp_b = tcp::Socket::new(RingBuffer::new(&mut rx_b), RingBuffer::new(&mut tx_b));
    // without it a lost FIN, or a late window of 0, could leave both hosts waiting for each other
    tcp_a.set_keep_alive(Some(KEEP_ALIVE));
    tcp_b.set_keep_alive(Some(KEEP_ALIVE));
    let wire = Wire::new(alloc, seed, loss);
    run(alloc, wire, (tcp_a, &mut memory_a), (tcp_b, &mut memory_b))
}

// Opens the sockets, and goes on until nothing is left to do.
fn run<'a>(
    alloc: Global,
    wire: Wire,
    a: (tcp::Socket<'a>, &'a mut Memory),
    b: (tcp::Socket<'a>, &'a mut Memory),
) -> Result<Trace, AllocError> {
    let mut simulation: FullSimulation<'a> = Simulation {
        a: Host::new(alloc, A, 1000, a.0, a.1.sockets(EXPERIMENT))?,
        b: Host::new(alloc, B, 5000, b.0, b.1.sockets(EXPERIMENT))?,
        client: Client::new(alloc),
        server: Server::new(),
        wire,
        trace: Trace::new(alloc),
        now: Moment { alloc, millis: 0 },
    };
    client::open(&mut simulation.a);
    server::open(&mut simulation.b);
    simulation.run()?;
    Ok(simulation.trace)
}

// The first whole millisecond that is not before the moment.
fn millis_of(at: Instant) -> u32 {
    let millis = at.micros.max(0).saturating_add(999) / 1000;
    u32::try_from(millis).unwrap_or(u32::MAX)
}

/// The two hosts with what runs on them, and the wire between them.
struct Simulation<S> {
    a: Host<S>,
    b: Host<S>,
    client: Client,
    server: Server,
    wire: Wire,
    trace: Trace,
    now: Moment,
}

type FullSimulation<'a> = Simulation<SocketSet<'a>>;

impl<'a> Simulation<SocketSet<'a>> {
    // Goes from one moment at which something happens to the next, until nothing is left to do. Between two rounds is a
    // millisecond at least, so that a socket which always wants a dispatch does not keep the host at one moment.
    fn run(&mut self) -> Result<(), AllocError> {
        for _ in 0..ROUNDS {
            self.round()?;
            let next = self.now.millis.saturating_add(1);
            match self.poll_at() {
                PollAt::Now => self.now.millis = next,
                PollAt::Time(at) => self.now.millis = next.max(millis_of(at)),
                PollAt::Ingress => break,
            }
        }
        Ok(())
    }

    // What happens now: packets arrive, the applications read and write, and the sockets emit what is due. A dispatch
    // may end a connection, so the applications then look again.
    fn round(&mut self) -> Result<(), AllocError> {
        self.receive()?;
        self.run_applications()?;
        self.emit()?;
        self.run_applications()
    }

    // Takes what has arrived off the wire.
    fn receive(&mut self) -> Result<(), AllocError> {
        for _ in 0..ARRIVALS {
            match self.wire.arrived(self.now.millis) {
                Some(packet) => self.deliver(packet.as_slice())?,
                None => break,
            }
        }
        Ok(())
    }

    // A packet arrives at the host that it is for: each drops what is for the other. What answers it goes on the wire.
    fn deliver(&mut self, packet: &[u8]) -> Result<(), AllocError> {
        let mut reply = [0u8; MTU];
        let count = self.a.receive(self.now, packet, &mut reply);
        self.send(&reply[..count])?;
        let count = self.b.receive(self.now, packet, &mut reply);
        self.send(&reply[..count])
    }

    // Puts what the sockets emit on the wire.
    fn emit(&mut self) -> Result<(), AllocError> {
        let mut packet = [0u8; MTU];
        for _ in 0..EMISSIONS {
            let count = self.a.emit(self.now, &mut packet);
            if count == 0 {
                break;
            }
            self.send(&packet[..count])?;
        }
        for _ in 0..EMISSIONS {
            let count = self.b.emit(self.now, &mut packet);
            if count == 0 {
                break;
            }
            self.send(&packet[..count])?;
        }
        Ok(())
    }

    fn run_applications(&mut self) -> Result<(), AllocError> {
        ask(&mut self.client, &mut self.a, self.now, &mut self.trace)?;
        ask(&mut self.server, &mut self.b, self.now, &mut self.trace)
    }

    // Puts a packet on the wire; one of no bytes is none.
    fn send(&mut self, packet: &[u8]) -> Result<(), AllocError> {
        if packet.is_empty() {
            return Ok(());
        }
        let arrival = self.wire.arrival(self.now.millis);
        self.trace.packet(self.now.millis, packet, arrival)?;
        if let Some(arrival) = arrival {
            let packet = Vec::from_slice(self.now.alloc, packet)?;
            self.wire.carry(packet, arrival)?;
        }
        Ok(())
    }

    // When something happens next.
    fn poll_at(&self) -> PollAt {
        let hosts = self.a.poll_at().min(self.b.poll_at());
        hosts.min(self.client.poll_at()).min(self.wire.poll_at())
    }
}
