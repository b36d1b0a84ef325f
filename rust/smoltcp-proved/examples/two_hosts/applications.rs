// Made from crates/two_hosts/src/applications.rt by rust/translate: change it there.
//! What runs on the hosts: a client on host a, and the servers that it talks to on host b.
//!
//! An application is asked in each round. It reads what its sockets have received, writes what they are to send, and
//! never waits.

pub mod client;
pub mod server;

use crate::host::{FullHost, Moment, SOCKETS};
use crate::trace::Trace;
use core::fmt::Write;
use smoltcp_proved::kit::alloc::AllocError;
use smoltcp_proved::sockets::tcp::State;
use smoltcp_proved::sockets::wire::{IpListenEndpoint, IpProtocol};
use smoltcp_proved::sockets::{Socket, tcp};

/// The port of the echo server (RFC 862).
pub const ECHO_PORT: u16 = 7;

/// The port of the server that tells its host's name.
pub const NAME_PORT: u16 = 53;

/// The identifier of the pings.
pub const PING_IDENT: u16 = 1;

/// The protocol number of the raw packet, one for experiments (RFC 3692).
pub const EXPERIMENT: IpProtocol = IpProtocol::Unknown(253);

// How many bytes one read takes: as many as a socket's buffer holds.
const READ: usize = 256;

// How many packets may wait in a datagram socket.
const PLACES: usize = 4;

/// What runs on a host.
pub trait Application {
    /// Uses one of the host's sockets.
    fn use_socket(
        &mut self,
        socket: &mut Socket<'_>,
        now: Moment,
        trace: &mut Trace,
    ) -> Result<(), AllocError>;
}

/// Asks an application: it uses the sockets of its host.
pub fn ask<A: Application>(
    application: &mut A,
    host: &mut FullHost<'_>,
    now: Moment,
    trace: &mut Trace,
) -> Result<(), AllocError> {
    for place in 0..SOCKETS {
        let Some(handle) = host.handle(place) else {
            continue;
        };
        if let Some(socket) = host.sockets.get_mut(handle) {
            application.use_socket(socket, now, trace)?;
        }
    }
    Ok(())
}

// A port, at every address of the host.
fn port(port: u16) -> IpListenEndpoint {
    IpListenEndpoint { addr: None, port }
}

// A line where the connection's state has changed since the last call.
fn note_state(
    state: &mut State,
    socket: &tcp::Socket<'_>,
    host: &str,
    now: u32,
    trace: &mut Trace,
) -> Result<(), AllocError> {
    if socket.state() != *state {
        *state = socket.state();
        writeln!(trace.at(now)?, "{host}: {state}")?;
    }
    Ok(())
}
