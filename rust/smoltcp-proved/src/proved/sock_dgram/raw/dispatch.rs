// Made from crates/sock_dgram/src/raw/dispatch.rt by rust/translate: change it there.
//! Packets that go out.

use crate::proved::ip_wire::{
    ChecksumCapabilities, IpRepr, IpVersion, Ipv4Packet, Ipv4Repr, Ipv6Packet, Ipv6Repr,
};
use crate::proved::sock_core::Context;
use crate::proved::sock_dgram::raw::socket::Socket;

impl<'a> Socket<'a> {
    // Sets the checksum of the first packet, and drops the padding in front of it. To do so again changes nothing of
    // what is offered.
    fn prepare_first(&mut self, sent: bool) {
        let _ = self.tx_buffer.dequeue_packet_with(move |_header: &(), bytes: &mut [u8]| -> Result<(), ()> {
            prepare(bytes, sent);
            Err(())
        });
    }

    // The first packet, where it is one that the socket sends.
    fn outgoing(&self) -> Option<(IpRepr, &[u8])> {
        let (_, bytes) = self.tx_buffer.first().ok()?;
        let (ip_repr, payload) = parsed(bytes)?;
        if !self.accepts(&ip_repr) {
            return None;
        }
        Some((ip_repr, payload))
    }

    // The one call of `emit`, if there is something to emit.
    fn emit_first<C: Context, E, F: FnOnce(&mut C, (IpRepr, &[u8])) -> Result<(), E>>(
        &self,
        cx: &mut C,
        emit: F,
    ) -> Result<(), E> {
        match self.outgoing() {
            None => Ok(()),
            Some(outgoing) => emit(cx, outgoing),
        }
    }

    /// Emits the first packet of the transmit queue: calls `emit` once with its header and its payload. Where the queue
    /// is empty, nothing happens; a packet that is malformed, or of another version of IP or protocol than the
    /// socket's, leaves the queue without an emit.
    ///
    /// The checksum of an IPv4 header is filled before, or set to 0 where the context's settings leave it to the
    /// device.
    ///
    /// # Errors
    /// The error that `emit` answers is passed on; the packet then stays first, and the next `dispatch` offers it
    /// again.
    pub fn dispatch<C: Context, E, F: FnOnce(&mut C, (IpRepr, &[u8])) -> Result<(), E>>(
        &mut self,
        cx: &mut C,
        emit: F,
    ) -> Result<(), E> {
        let sent = cx.checksum_caps().ipv4.tx();
        self.prepare_first(sent);
        self.emit_first(cx, emit)?;
        self.tx_buffer.take_first();
        Ok(())
    }
}

// Whether the lengths that an IPv4 packet states of itself fit.
fn is_sound_ipv4(packet: &[u8]) -> bool {
    Ipv4Packet::new_checked(packet).is_ok()
}

// Sets the checksum of an IPv4 packet.
fn prepare(packet: &mut [u8], sent: bool) {
    let Ok(IpVersion::Ipv4) = IpVersion::of_packet(packet) else {
        return;
    };
    if !is_sound_ipv4(packet) {
        return;
    }
    if sent {
        Ipv4Packet::fill_checksum(packet);
    } else {
        Ipv4Packet::set_checksum(packet, 0);
    }
}

// A packet's header and its payload, whatever its checksum.
fn parsed(packet: &[u8]) -> Option<(IpRepr, &[u8])> {
    match IpVersion::of_packet(packet).ok()? {
        IpVersion::Ipv4 => {
            let packet = Ipv4Packet::new_checked(packet).ok()?;
            let repr = Ipv4Repr::parse(&packet, &ChecksumCapabilities::ignored()).ok()?;
            Some((IpRepr::Ipv4(repr), packet.payload()))
        }
        IpVersion::Ipv6 => {
            let packet = Ipv6Packet::new_checked(packet).ok()?;
            let repr = Ipv6Repr::parse(&packet).ok()?;
            Some((IpRepr::Ipv6(repr), packet.payload()))
        }
    }
}
