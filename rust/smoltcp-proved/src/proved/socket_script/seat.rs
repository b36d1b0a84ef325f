// Made from crates/socket_script/src/seat.rt by rust/translate: change it there.
//! A socket of an example, and what it emitted.

use crate::kit::Vec;
use crate::kit::alloc::Global;
use crate::kit::io;
use crate::proved::control_wire::{IcmpRepr, TcpRepr, UdpRepr};
use crate::proved::ip_wire::{Checksum, IpAddress, IpEndpoint, IpRepr, Ipv4Address, Ipv6Address};
use crate::proved::smoltcp_socket::{Socket, icmp, raw, tcp, udp};
use crate::proved::socket_script::capture::put_packet;
use crate::proved::socket_script::clock::Clock;
use crate::proved::socket_script::line::{Line, Part};
use crate::proved::socket_script::memory::Halt;
use crate::proved::socket_script::outbox::{Failed, Host, Moment, host};
use crate::proved::socket_script::packet::{Kind, Packet};
use crate::proved::socket_script::shown::Shown;

// Where a socket is and where its peer is, until a line says otherwise.
const HERE: IpEndpoint = IpEndpoint { addr: IpAddress::Ipv4(crate::kit::ipv4([10, 0, 0, 1])), port: 49152 };

const PEER: IpEndpoint = IpEndpoint { addr: IpAddress::Ipv4(crate::kit::ipv4([10, 0, 0, 2])), port: 80 };

/// When a call is made, and what a random word is.
#[derive(Clone, Copy)]
pub struct Now {
    /// The moment in milliseconds.
    pub millis: u32,
    /// The word.
    pub word: u32,
}

/// A socket, where it is, and the packets that it emitted.
pub struct Seat<'a> {
    pub socket: Socket<'a, Clock>,
    pub here: IpEndpoint,
    pub peer: IpEndpoint,
    /// Whether checksums of IPv4 headers are tested and sent.
    pub ipv4: Checksum,
    /// What it emitted, the oldest first.
    pub sent: Vec<Packet>,
    /// What came last and was written by hand, until it is written as a record.
    pub came: Option<Packet>,
    // How many of those that were sent are written as records.
    recorded: usize,
}

impl<'a> Seat<'a> {
    /// A socket that has emitted nothing.
    pub fn new(alloc: Global, socket: Socket<'a, Clock>) -> Seat<'a> {
        Seat {
            socket,
            here: HERE,
            peer: PEER,
            ipv4: Checksum::Both,
            sent: Vec::new(alloc),
            came: None,
            recorded: 0,
        }
    }

    /// The context of a call.
    pub fn host(&self, alloc: Global, now: Now, fails: bool) -> Host {
        let at = Moment { millis: now.millis, word: now.word, addr: self.here.addr, ipv4: self.ipv4 };
        host(alloc, at, fails)
    }

    /// The context of a call while the own address is gone.
    pub fn host_elsewhere(&self, alloc: Global, now: Now) -> Host {
        let at =
            Moment { millis: now.millis, word: now.word, addr: elsewhere(self.here.addr), ipv4: self.ipv4 };
        host(alloc, at, false)
    }

    /// Keeps a packet, and writes its number, counted from 1, and the packet.
    pub fn keep(&mut self, packet: Packet, line: &mut Line) {
        line.put("% ", &[Part::Count(self.sent.len().saturating_add(1))]);
        line.show(Shown { packet: &packet, here: self.here, peer: self.peer });
        if self.sent.push(packet).is_err() {
            line.cut();
        }
    }

    /// Writes as records what came by hand and what was sent and is not written yet.
    pub fn put_packets<W: io::Write>(
        &mut self,
        alloc: Global,
        millis: u32,
        writer: &mut W,
    ) -> Result<(), Halt> {
        if let Some(packet) = self.came.take() {
            put_packet(alloc, millis, &packet, writer)?;
        }
        let first = self.recorded;
        self.recorded = self.sent.len();
        for packet in self.sent.as_slice().iter().skip(first) {
            put_packet(alloc, millis, packet, writer)?;
        }
        Ok(())
    }

    /// Lets the socket emit at most one packet, and writes what came of it.
    pub fn dispatch(&mut self, host: &mut Host, line: &mut Line) {
        let answer = dispatched(&mut self.socket, host);
        if host.outbox.is_out {
            line.cut();
        }
        match (answer, taken(host)) {
            (Err(Failed), _) => line.say("emit-failed"),
            (Ok(()), None) => line.say("quiet"),
            (Ok(()), Some(packet)) => {
                line.say("emitted ");
                self.keep(packet, line);
            }
        }
    }
}

// Another address of the same version: the unspecified one.
fn elsewhere(addr: IpAddress) -> IpAddress {
    match addr {
        IpAddress::Ipv4(_) => IpAddress::Ipv4(crate::kit::ipv4([0; 4])),
        IpAddress::Ipv6(_) => IpAddress::Ipv6(crate::kit::ipv6([0; 16])),
    }
}

// What was emitted.
fn taken(host: &mut Host) -> Option<Packet> {
    host.outbox.packet.take()
}

fn dispatched(socket: &mut Socket<'_, Clock>, host: &mut Host) -> Result<(), Failed> {
    match socket {
        Socket::Tcp(socket) => dispatch_tcp(socket, host),
        Socket::Udp(socket) => dispatch_udp(socket, host),
        Socket::Icmp(socket) => dispatch_icmp(socket, host),
        Socket::Raw(socket) => dispatch_raw(socket, host),
    }
}

fn dispatch_tcp(socket: &mut tcp::Socket<'_, Clock>, host: &mut Host) -> Result<(), Failed> {
    socket.dispatch(host, |cx: &mut Host, sent: (IpRepr, TcpRepr<'_>)| {
        let packet = Packet::of_segment(cx.outbox.alloc, sent.0, &sent.1);
        cx.outbox.emit(packet)
    })
}

fn dispatch_udp(socket: &mut udp::Socket<'_>, host: &mut Host) -> Result<(), Failed> {
    socket.dispatch(host, |cx: &mut Host, sent: (IpRepr, UdpRepr, &[u8])| {
        let packet = Packet::new(cx.outbox.alloc, sent.0, Kind::Udp(sent.1), sent.2);
        cx.outbox.emit(packet)
    })
}

fn dispatch_icmp(socket: &mut icmp::Socket<'_>, host: &mut Host) -> Result<(), Failed> {
    socket.dispatch(host, |cx: &mut Host, sent: (IpRepr, IcmpRepr<'_>)| {
        let packet = Packet::of_message(cx.outbox.alloc, sent.0, &sent.1);
        cx.outbox.emit(packet)
    })
}

fn dispatch_raw(socket: &mut raw::Socket<'_>, host: &mut Host) -> Result<(), Failed> {
    socket.dispatch(host, |cx: &mut Host, sent: (IpRepr, &[u8])| {
        let packet = Packet::new(cx.outbox.alloc, sent.0, Kind::Raw, sent.1);
        cx.outbox.emit(packet)
    })
}
