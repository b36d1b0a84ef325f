// Made from crates/two_hosts/src/applications/client.rt by rust/translate: change it there.
//! The client on host a.

use super::{Application, ECHO_PORT, EXPERIMENT, NAME_PORT, PING_IDENT, PLACES, READ, note_state, port};
use crate::context::{A, B};
use crate::host::{FullHost, Host, Moment, SOCKETS};
use crate::packet::icmp_bytes;
use crate::trace::Trace;
use core::fmt::Write;
use smoltcp_proved::kit::alloc::{AllocError, Global};
use smoltcp_proved::kit::{String, Vec};
use smoltcp_proved::sockets::tcp::State;
use smoltcp_proved::sockets::time::Instant;
use smoltcp_proved::sockets::udp::UdpMetadata;
use smoltcp_proved::sockets::wire::{
    ChecksumCapabilities, Icmpv4Repr, IpAddress, IpEndpoint, IpRepr, Ipv4Repr,
};
use smoltcp_proved::sockets::{PollAt, Socket, icmp, raw, tcp, udp};

// The port that it connects from.
const TCP_PORT: u16 = 49152;

// The port that it asks from.
const UDP_PORT: u16 = 49153;

// What it sends to the echo server.
const TEXT: &[u8] = b"the quick brown fox jumps over the lazy dog";

// How many bytes of the text it sends at a time.
const PIECE: usize = 8;

// Every how many milliseconds it sends a piece.
const PIECE_EVERY: u32 = 5;

// After how many milliseconds it asks for the name again.
const ASK_EVERY: u32 = 1000;

// How often it pings.
const PINGS: u16 = 4;

// Every how many milliseconds it pings.
const PING_EVERY: u32 = 500;

/// Opens the client's sockets on host a. The TCP socket connects to the echo server, and sends small segments at once.
pub fn open(host: &mut FullHost<'_>) {
    let Host { interface, sockets } = host;
    let server = IpEndpoint { addr: IpAddress::Ipv4(B), port: ECHO_PORT };
    for place in 0..SOCKETS {
        let Some(handle) = sockets.handle_at(place) else {
            continue;
        };
        match sockets.get_mut(handle) {
            Some(Socket::Tcp(tcp)) => {
                tcp.set_nagle_enabled(false);
                let _ = tcp.connect(interface.context(), server, port(TCP_PORT));
            }
            Some(Socket::Udp(udp)) => {
                let _ = udp.bind(port(UDP_PORT));
            }
            Some(Socket::Icmp(icmp)) => {
                let _ = icmp.bind(icmp::Endpoint::Ident(PING_IDENT));
            }
            _ => {}
        }
    }
}

/// The client: it sends a text to the echo server, asks for host b's name, pings it, and sends it one raw packet.
#[derive(Debug)]
pub struct Client {
    // the connection's state as it was seen last
    state: State,
    // how much of the text went to the TCP socket, and when the next piece will
    sent: usize,
    next_piece: u32,
    // what came back
    echoed: Vec<u8>,
    // when it asks for the name; none once it knows it
    next_question: Option<u32>,
    // how many pings went out, and when the next one will
    pings: u16,
    next_ping: u32,
    // whether the raw packet went out
    raw_sent: bool,
}

impl Application for Client {
    fn use_socket(
        &mut self,
        socket: &mut Socket<'_>,
        now: Moment,
        trace: &mut Trace,
    ) -> Result<(), AllocError> {
        match socket {
            Socket::Tcp(socket) => self.run_tcp(socket, now, trace),
            Socket::Udp(socket) => self.ask_name(socket, now, trace),
            Socket::Icmp(socket) => self.ping(socket, now, trace),
            Socket::Raw(socket) => {
                self.send_raw(socket);
                Ok(())
            }
        }
    }
}

impl Client {
    /// A client that has not begun.
    pub fn new(alloc: Global) -> Client {
        Client {
            state: State::Closed,
            sent: 0,
            next_piece: 0,
            echoed: Vec::new(alloc),
            next_question: Some(0),
            pings: 0,
            next_ping: 0,
            raw_sent: false,
        }
    }

    /// When it wants to be asked again, if nothing arrives before.
    pub fn poll_at(&self) -> PollAt {
        let mut next = PollAt::Ingress;
        if let Some(at) = self.next_question {
            next = next.min(moment(at));
        }
        if self.pings < PINGS {
            next = next.min(moment(self.next_ping));
        }
        if self.state == State::Established && self.sent < TEXT.len() {
            next = next.min(moment(self.next_piece));
        }
        next
    }

    // Sends the text, reads what comes back, and closes when all of it is there.
    fn run_tcp(
        &mut self,
        socket: &mut tcp::Socket<'_>,
        now: Moment,
        trace: &mut Trace,
    ) -> Result<(), AllocError> {
        note_state(&mut self.state, socket, "a", now.millis, trace)?;
        self.send_piece(socket, now.millis);
        self.read_echo(socket, now, trace)?;
        if self.state == State::Established && self.echoed.len() == TEXT.len() {
            socket.close();
            self.compare_echo(now.millis, trace)?;
        }
        note_state(&mut self.state, socket, "a", now.millis, trace)
    }

    fn compare_echo(&self, now: u32, trace: &mut Trace) -> Result<(), AllocError> {
        let same = self.echoed.as_slice() == TEXT;
        writeln!(trace.at(now)?, "a: all came back, the same: {same}")
    }

    fn send_piece(&mut self, socket: &mut tcp::Socket<'_>, now: u32) {
        if socket.may_send() && self.sent < TEXT.len() && self.next_piece <= now {
            let end = (self.sent + PIECE).min(TEXT.len());
            if let Ok(count) = socket.send_slice(&TEXT[self.sent..end]) {
                self.sent = self.sent.saturating_add(count);
            }
            self.next_piece = now.saturating_add(PIECE_EVERY);
        }
    }

    fn read_echo(
        &mut self,
        socket: &mut tcp::Socket<'_>,
        now: Moment,
        trace: &mut Trace,
    ) -> Result<(), AllocError> {
        let mut bytes = [0u8; READ];
        if socket.can_recv() {
            if let Ok(count) = socket.recv_slice(&mut bytes) {
                self.echoed.extend_from_slice(&bytes[..count])?;
                let text = String::from_utf8_lossy(now.alloc, &bytes[..count])?;
                writeln!(trace.at(now.millis)?, "a: echo {text:?}")?;
            }
        }
        Ok(())
    }

    // Asks for the name until there is an answer.
    fn ask_name(
        &mut self,
        socket: &mut udp::Socket<'_>,
        now: Moment,
        trace: &mut Trace,
    ) -> Result<(), AllocError> {
        for _ in 0..PLACES {
            self.read_name(socket, now, trace)?;
        }
        match self.next_question {
            Some(at) if at <= now.millis => {
                let server =
                    UdpMetadata::from_endpoint(IpEndpoint { addr: IpAddress::Ipv4(B), port: NAME_PORT });
                let _ = socket.send_slice(b"name?", server);
                self.next_question = Some(now.millis.saturating_add(ASK_EVERY));
            }
            _ => {}
        }
        Ok(())
    }

    fn read_name(
        &mut self,
        socket: &mut udp::Socket<'_>,
        now: Moment,
        trace: &mut Trace,
    ) -> Result<(), AllocError> {
        let mut bytes = [0u8; READ];
        if let Ok((count, from)) = socket.recv_slice(&mut bytes) {
            let text = String::from_utf8_lossy(now.alloc, &bytes[..count])?;
            writeln!(trace.at(now.millis)?, "a: {from} answers {text:?}")?;
            self.next_question = None;
        }
        Ok(())
    }

    // Shows the answers to its pings, and sends the next one when its time has come.
    fn ping(
        &mut self,
        socket: &mut icmp::Socket<'_>,
        now: Moment,
        trace: &mut Trace,
    ) -> Result<(), AllocError> {
        for _ in 0..PLACES {
            read_pong(socket, now.millis, trace)?;
        }
        if self.pings < PINGS && self.next_ping <= now.millis {
            self.pings += 1;
            self.next_ping = now.millis.saturating_add(PING_EVERY);
            let request = Icmpv4Repr::EchoRequest { ident: PING_IDENT, seq_no: self.pings, body: b"ping" };
            let message = icmp_bytes(now.alloc, &request)?;
            let _ = socket.send_slice(message.as_slice(), IpAddress::Ipv4(B));
        }
        Ok(())
    }

    // Sends one packet of a protocol of its own: a raw socket is given the IP header too.
    fn send_raw(&mut self, socket: &mut raw::Socket<'_>) {
        if self.raw_sent {
            return;
        }
        let header = IpRepr::Ipv4(Ipv4Repr {
            src_addr: A,
            dst_addr: B,
            next_header: EXPERIMENT,
            payload_len: 5,
            hop_limit: 64,
        });
        let mut packet = [0u8; 25];
        header.emit(&mut packet, &ChecksumCapabilities::default());
        packet[20..].copy_from_slice(b"hello");
        self.raw_sent = socket.send_slice(&packet).is_ok();
    }
}

// Shows the next answer to a ping.
fn read_pong(socket: &mut icmp::Socket<'_>, now: u32, trace: &mut Trace) -> Result<(), AllocError> {
    let mut bytes = [0u8; READ];
    if let Ok((count, _)) = socket.recv_slice(&mut bytes) {
        let message = Icmpv4Repr::parse(&bytes[..count], &ChecksumCapabilities::default());
        if let Ok(Icmpv4Repr::EchoReply { seq_no, .. }) = message {
            writeln!(trace.at(now)?, "a: ping {seq_no} is answered")?;
        }
    }
    Ok(())
}

fn moment(millis: u32) -> PollAt {
    PollAt::Time(Instant::from_millis(i64::from(millis)))
}
