// Made from crates/net_host/src/emission.rt by rust/translate: change it there.
//! What a socket emits, into a buffer.

use crate::proved::net_host::environment::Environment;
use crate::proved::net_host::wire::{Sent, TooShort, Wire};
use crate::sockets::sock_tcp::TsvalSource;
use crate::sockets::wire::{IcmpRepr, IpAddress, IpRepr, TcpRepr, UdpRepr};
use crate::sockets::{icmp, raw, tcp, udp};

// Lets the socket emit.
fn emit_segment<G: TsvalSource>(
    socket: &mut tcp::Socket<'_, G>,
    wire: &mut Wire<'_>,
) -> Result<(), TooShort> {
    socket.dispatch(wire, move |cx: &mut Wire<'_>, sent: (IpRepr, TcpRepr<'_>)| -> Result<(), TooShort> {
        cx.write_segment(&sent.0, &sent.1)
    })
}

/// Lets the socket emit into the buffer. What its dispatch answered, and what was sent; where the buffer is too short,
/// the socket offers the packet again.
pub(crate) fn emit_tcp<G: TsvalSource>(
    socket: &mut tcp::Socket<'_, G>,
    environment: &Environment,
    out: &mut [u8],
) -> (Result<(), TooShort>, Sent) {
    let mut wire = Wire { environment, out, len: 0, lost: false };
    let answer = emit_segment(socket, &mut wire);
    let sent = Sent { len: wire.len, lost: wire.lost };
    (answer, sent)
}

// Lets the socket emit.
fn emit_datagram(socket: &mut udp::Socket<'_>, wire: &mut Wire<'_>) -> Result<(), TooShort> {
    socket.dispatch(wire, move |cx: &mut Wire<'_>, sent: (IpRepr, UdpRepr, &[u8])| -> Result<(), TooShort> {
        cx.write_datagram(&sent.0, &sent.1, sent.2)
    })
}

/// Dispatches a UDP socket into `out`.
// Not inlined, so that the turn of a TCP socket stays short.
#[inline(never)]
pub(crate) fn emit_udp(
    socket: &mut udp::Socket<'_>,
    environment: &Environment,
    out: &mut [u8],
) -> (Result<(), TooShort>, Sent) {
    let mut wire = Wire { environment, out, len: 0, lost: false };
    let answer = emit_datagram(socket, &mut wire);
    let sent = Sent { len: wire.len, lost: wire.lost };
    (answer, sent)
}

// Lets the socket emit.
fn emit_message(socket: &mut icmp::Socket<'_>, wire: &mut Wire<'_>) -> Result<(), TooShort> {
    socket.dispatch(wire, move |cx: &mut Wire<'_>, sent: (IpRepr, IcmpRepr<'_>)| -> Result<(), TooShort> {
        cx.write_message(&sent.0, &sent.1)
    })
}

/// Dispatches an ICMP socket into `out`.
// Not inlined, so that the turn of a TCP socket stays short.
#[inline(never)]
pub(crate) fn emit_icmp(
    socket: &mut icmp::Socket<'_>,
    environment: &Environment,
    out: &mut [u8],
) -> (Result<(), TooShort>, Sent) {
    let mut wire = Wire { environment, out, len: 0, lost: false };
    let answer = emit_message(socket, &mut wire);
    let sent = Sent { len: wire.len, lost: wire.lost };
    (answer, sent)
}

// Lets the socket emit.
fn emit_packet(socket: &mut raw::Socket<'_>, wire: &mut Wire<'_>) -> Result<(), TooShort> {
    socket.dispatch(wire, move |cx: &mut Wire<'_>, sent: (IpRepr, &[u8])| -> Result<(), TooShort> {
        cx.write_raw(&sent.0, sent.1)
    })
}

/// Dispatches a raw socket into `out`.
// Not inlined, so that the turn of a TCP socket stays short.
#[inline(never)]
pub(crate) fn emit_raw(
    socket: &mut raw::Socket<'_>,
    environment: &Environment,
    out: &mut [u8],
) -> (Result<(), TooShort>, Sent) {
    let mut wire = Wire { environment, out, len: 0, lost: false };
    let answer = emit_packet(socket, &mut wire);
    let sent = Sent { len: wire.len, lost: wire.lost };
    (answer, sent)
}
