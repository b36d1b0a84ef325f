// Made from crates/two_hosts/src/applications/server.rt by rust/translate: change it there.
//! The servers on host b.

use super::{Application, ECHO_PORT, NAME_PORT, PLACES, READ, note_state, port};
use crate::host::{FullHost, Moment, SOCKETS};
use crate::trace::Trace;
use core::fmt::Write;
use smoltcp_proved::kit::alloc::AllocError;
use smoltcp_proved::sockets::tcp::State;
use smoltcp_proved::sockets::{Socket, raw, tcp, udp};

/// Opens the servers' sockets on host b.
pub fn open(host: &mut FullHost<'_>) {
    for place in 0..SOCKETS {
        let Some(handle) = host.handle(place) else {
            continue;
        };
        match host.sockets.get_mut(handle) {
            Some(Socket::Tcp(tcp)) => {
                let _ = tcp.listen(port(ECHO_PORT));
            }
            Some(Socket::Udp(udp)) => {
                let _ = udp.bind(port(NAME_PORT));
            }
            _ => {}
        }
    }
}

/// The servers: they echo what comes over TCP, tell the host's name over UDP, and show raw packets. Pings are answered
/// by the host itself.
#[derive(Debug)]
pub struct Server {
    // the connection's state as it was seen last
    state: State,
}

impl Application for Server {
    fn use_socket(
        &mut self,
        socket: &mut Socket<'_>,
        now: Moment,
        trace: &mut Trace,
    ) -> Result<(), AllocError> {
        match socket {
            Socket::Tcp(socket) => self.echo(socket, now, trace),
            Socket::Udp(socket) => tell_name(socket, now, trace),
            Socket::Icmp(_) => Ok(()),
            Socket::Raw(socket) => show_packets(socket, now, trace),
        }
    }
}

impl Server {
    /// Servers that wait.
    pub fn new() -> Server {
        Server { state: State::Listen }
    }

    // Sends back what has come, as far as there is room, and closes when the client has closed and nothing is left.
    fn echo(
        &mut self,
        socket: &mut tcp::Socket<'_>,
        now: Moment,
        trace: &mut Trace,
    ) -> Result<(), AllocError> {
        note_state(&mut self.state, socket, "b", now.millis, trace)?;
        send_back(socket);
        if self.state == State::CloseWait && !socket.can_recv() {
            socket.close();
        }
        note_state(&mut self.state, socket, "b", now.millis, trace)
    }
}

fn send_back(socket: &mut tcp::Socket<'_>) {
    let mut bytes = [0u8; READ];
    let room = socket.send_capacity().saturating_sub(socket.send_queue());
    if socket.can_recv() {
        if let Ok(count) = socket.recv_slice(&mut bytes[..room.min(READ)]) {
            let _ = socket.send_slice(&bytes[..count]);
        }
    }
}

// Answers every question with the name.
fn tell_name(socket: &mut udp::Socket<'_>, now: Moment, trace: &mut Trace) -> Result<(), AllocError> {
    let mut bytes = [0u8; READ];
    for _ in 0..PLACES {
        if let Ok((_, from)) = socket.recv_slice(&mut bytes) {
            writeln!(trace.at(now.millis)?, "b: {from} asks for the name")?;
            let _ = socket.send_slice(b"host b", from);
        }
    }
    Ok(())
}

// Shows each packet, which comes with its header.
fn show_packets(socket: &mut raw::Socket<'_>, now: Moment, trace: &mut Trace) -> Result<(), AllocError> {
    let mut bytes = [0u8; READ];
    for _ in 0..PLACES {
        if let Ok(count) = socket.recv_slice(&mut bytes) {
            writeln!(trace.at(now.millis)?, "b: a raw packet of {count} bytes")?;
        }
    }
    Ok(())
}
