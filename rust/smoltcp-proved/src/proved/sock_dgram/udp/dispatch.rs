// Made from crates/sock_dgram/src/udp/dispatch.rt by rust/translate: change it there.
//! Datagrams that go out.

use crate::proved::control_wire::UdpRepr;
use crate::proved::ip_wire::{IpAddress, IpProtocol, IpRepr};
use crate::proved::sock_core::{Context, PollAt};
use crate::proved::sock_dgram::queue::{hops_of, poll_moment};
use crate::proved::sock_dgram::udp::socket::{Socket, UdpMetadata};

impl<'a> Socket<'a> {
    // The address that a datagram is sent from.
    fn source_of<C: Context>(&self, cx: &C, meta: &UdpMetadata) -> Option<IpAddress> {
        self.known_source(meta).or_else(|| cx.get_source_address(&meta.endpoint.addr))
    }

    /// The headers with which `dispatch` sends a datagram of these bytes: for a caller that keeps no queue.
    ///
    /// None where the datagram has no source, or one of another version of IP than its destination.
    pub fn prepared<C: Context>(
        &self,
        cx: &C,
        meta: &UdpMetadata,
        payload: &[u8],
    ) -> Option<(IpRepr, UdpRepr)> {
        let source = self.source_of(cx, meta)?;
        if source.version() != meta.endpoint.addr.version() {
            return None;
        }
        let repr = UdpRepr { src_port: self.endpoint.port, dst_port: meta.endpoint.port };
        let ip_repr = IpRepr::new(
            source,
            meta.endpoint.addr,
            IpProtocol::Udp,
            repr.header_len() + payload.len(),
            hops_of(self.hop_limit),
        );
        Some((ip_repr, repr))
    }

    // The first datagram, where it has a source.
    fn outgoing<C: Context>(&self, cx: &C) -> Option<(IpRepr, UdpRepr, &[u8])> {
        let (meta, payload) = self.tx_buffer.first().ok()?;
        let (ip_repr, repr) = self.prepared(cx, meta, payload)?;
        Some((ip_repr, repr, payload))
    }

    // The one call of `emit`, if there is something to emit.
    fn emit_first<C: Context, E, F: FnOnce(&mut C, (IpRepr, UdpRepr, &[u8])) -> Result<(), E>>(
        &self,
        cx: &mut C,
        emit: F,
    ) -> Result<(), E> {
        match self.outgoing(cx) {
            None => Ok(()),
            Some(outgoing) => emit(cx, outgoing),
        }
    }

    /// Emits the first datagram of the transmit queue: calls `emit` once with it. Where the queue is empty, nothing
    /// happens; a datagram without a source address (none given, none bound, and the context has none) leaves the queue
    /// without an emit. A source of another version of IP than the destination counts as none.
    ///
    /// # Errors
    /// The error that `emit` answers is passed on; the datagram then stays first, and the next `dispatch` offers it
    /// again.
    pub fn dispatch<C: Context, E, F: FnOnce(&mut C, (IpRepr, UdpRepr, &[u8])) -> Result<(), E>>(
        &mut self,
        cx: &mut C,
        emit: F,
    ) -> Result<(), E> {
        self.tx_buffer.skip_padding();
        self.emit_first(cx, emit)?;
        self.tx_buffer.take_first();
        Ok(())
    }

    /// When the socket wants its next `dispatch`: `Ingress` where no place of the transmit buffer is taken, else `Now`.
    pub fn poll_at<C: Context>(&self, _cx: &C) -> PollAt {
        poll_moment(&self.tx_buffer)
    }
}
