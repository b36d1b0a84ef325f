// Made from crates/host_context/src/layer.rt by rust/translate: change it there.
//! The interface layer of a host with TCP sockets: what is due goes out, and what arrives is offered to a socket.

use crate::kit::Vec;
use crate::kit::alloc::AllocError;
use crate::proved::host_context::interface::Interface;
use crate::proved::host_context::outbox::Outbox;
use crate::proved::host_context::words::Words;
use crate::proved::segment_wire::packet;
use crate::proved::smoltcp_socket::Context;
use crate::proved::smoltcp_socket::tcp::Socket;
use crate::proved::smoltcp_socket::wire::{IpRepr, TcpRepr};
use crate::proved::sock_tcp::{Reply, TsvalSource};

/// Emits at most one packet of the socket, into the outbox.
///
/// # Errors
/// Where memory is wanting for it, the packets in the outbox are those of before, and the socket offers it again.
pub fn dispatch_tcp<W: Words, G: TsvalSource>(
    socket: &mut Socket<'_, G>,
    interface: &mut Interface<W, Outbox>,
) -> Result<(), AllocError> {
    socket.dispatch(
        interface,
        move |cx: &mut Interface<W, Outbox>, sent: (IpRepr, TcpRepr<'_>)| -> Result<(), AllocError> {
            put_tcp(cx, &sent.0, &sent.1)
        },
    )
}

// Adds the packet of a segment.
fn put_tcp<W: Words>(
    interface: &mut Interface<W, Outbox>,
    ip: &IpRepr,
    repr: &TcpRepr<'_>,
) -> Result<(), AllocError> {
    let caps = interface.checksum_caps();
    interface.outbox.emit_tcp(ip, repr, &caps)?;
    Ok(())
}

/// Offers a packet to the socket, and says whether the socket took it. What the socket answers goes into the outbox.
///
/// A packet that is malformed, or that carries no segment, is for no socket; nothing changes then.
///
/// # Errors
/// Where memory is wanting for the answer, the socket has taken the segment, the packets in the outbox are those of
/// before, and the answer is lost, as a packet may be.
pub fn receive_tcp<W: Words, G: TsvalSource>(
    socket: &mut Socket<'_, G>,
    interface: &mut Interface<W, Outbox>,
    bytes: &[u8],
) -> Result<bool, AllocError> {
    let caps = interface.checksums;
    let Ok((ip, repr)) = packet::parse_tcp(bytes, &caps) else {
        return Ok(false);
    };
    if repr.payload.len() > 65535 || !socket.accepts(interface, &ip, &repr) {
        return Ok(false);
    }
    hear(socket, interface, &ip, &repr)
}

// The socket takes the segment, and its answer goes into the outbox. Of what a call does to a context only the facts
// and the words are known: so the packets are held apart meanwhile.
fn hear<W: Words, G: TsvalSource>(
    socket: &mut Socket<'_, G>,
    interface: &mut Interface<W, Outbox>,
    ip: &IpRepr,
    repr: &TcpRepr<'_>,
) -> Result<bool, AllocError> {
    let packets = hold(interface);
    let answer = socket.process(interface, ip, repr);
    put_back(interface, packets);
    put_answer(interface, &answer)?;
    Ok(true)
}

// The packets of the outbox, which is empty meanwhile.
fn hold<W: Words>(interface: &mut Interface<W, Outbox>) -> Vec<Vec<u8>> {
    interface.outbox.take()
}

// These are the packets of the outbox again.
fn put_back<W: Words>(interface: &mut Interface<W, Outbox>, packets: Vec<Vec<u8>>) {
    interface.outbox.packets = packets;
}

// Adds the packet of the answer, if any.
fn put_answer<W: Words>(
    interface: &mut Interface<W, Outbox>,
    answer: &Option<Reply>,
) -> Result<(), AllocError> {
    match answer {
        None => Ok(()),
        Some((ip, repr)) => put_tcp(interface, ip, repr),
    }
}

/// The packets in the outbox, which is empty afterwards.
pub fn take_packets<W>(interface: &mut Interface<W, Outbox>) -> Vec<Vec<u8>> {
    interface.outbox.take()
}
