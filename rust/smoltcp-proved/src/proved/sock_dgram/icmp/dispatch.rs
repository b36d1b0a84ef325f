// Made from crates/sock_dgram/src/icmp/dispatch.rt by rust/translate: change it there.
//! Messages that go out.

use crate::proved::control_wire::{IcmpRepr, Icmpv4Repr, Icmpv6Repr};
use crate::proved::ip_wire::{
    ChecksumCapabilities, IpAddress, IpProtocol, IpRepr, Ipv4Address, Ipv4Repr, Ipv6Address, Ipv6Repr,
};
use crate::proved::sock_core::Context;
use crate::proved::sock_dgram::icmp::socket::Socket;
use crate::proved::sock_dgram::queue::hops_of;

impl<'a> Socket<'a> {
    fn outgoing_v4<'b>(
        &self,
        src_addr: Ipv4Address,
        dst_addr: Ipv4Address,
        bytes: &'b [u8],
    ) -> Option<(IpRepr, IcmpRepr<'b>)> {
        let repr = Icmpv4Repr::parse(bytes, &ChecksumCapabilities::ignored()).ok()?;
        let ip_repr = Ipv4Repr {
            src_addr,
            dst_addr,
            next_header: IpProtocol::Icmp,
            payload_len: repr.buffer_len(),
            hop_limit: hops_of(self.hop_limit),
        };
        Some((IpRepr::Ipv4(ip_repr), IcmpRepr::Ipv4(repr)))
    }

    fn outgoing_v6<'b>(
        &self,
        src_addr: Ipv6Address,
        dst_addr: Ipv6Address,
        bytes: &'b [u8],
    ) -> Option<(IpRepr, IcmpRepr<'b>)> {
        let caps = ChecksumCapabilities::ignored();
        let repr = Icmpv6Repr::parse(&src_addr, &dst_addr, bytes, &caps).ok()?;
        let ip_repr = Ipv6Repr {
            src_addr,
            dst_addr,
            next_header: IpProtocol::Icmpv6,
            payload_len: repr.buffer_len(),
            hop_limit: hops_of(self.hop_limit),
        };
        Some((IpRepr::Ipv6(ip_repr), IcmpRepr::Ipv6(repr)))
    }

    /// What `dispatch` sends of a message of these bytes to `remote`: for a caller that keeps no queue.
    ///
    /// None where it has no source or is malformed. Its checksum is not tested.
    pub fn prepared<'b, C: Context>(
        &self,
        cx: &C,
        remote: IpAddress,
        bytes: &'b [u8],
    ) -> Option<(IpRepr, IcmpRepr<'b>)> {
        match remote {
            IpAddress::Ipv4(dst) => {
                let src = cx.get_source_address_ipv4(&dst)?;
                self.outgoing_v4(src, dst, bytes)
            }
            IpAddress::Ipv6(dst) => {
                let src = cx.get_source_address_ipv6(&dst);
                self.outgoing_v6(src, dst, bytes)
            }
        }
    }

    // The first message, the same.
    fn outgoing<C: Context>(&self, cx: &C) -> Option<(IpRepr, IcmpRepr<'_>)> {
        let (remote, bytes) = self.tx_buffer.first().ok()?;
        self.prepared(cx, *remote, bytes)
    }

    // The one call of `emit`, if there is something to emit.
    fn emit_first<C: Context, E, F: FnOnce(&mut C, (IpRepr, IcmpRepr<'_>)) -> Result<(), E>>(
        &self,
        cx: &mut C,
        emit: F,
    ) -> Result<(), E> {
        match self.outgoing(cx) {
            None => Ok(()),
            Some(outgoing) => emit(cx, outgoing),
        }
    }

    /// Emits the first message of the transmit queue: calls `emit` once with it. Where the queue is empty, nothing
    /// happens; a message over IPv4 for which the context has no source address, and a malformed one, leave the queue
    /// without an emit. The checksum of a message is not tested.
    ///
    /// # Errors
    /// The error that `emit` answers is passed on; the message then stays first, and the next `dispatch` offers it
    /// again.
    pub fn dispatch<C: Context, E, F: FnOnce(&mut C, (IpRepr, IcmpRepr<'_>)) -> Result<(), E>>(
        &mut self,
        cx: &mut C,
        emit: F,
    ) -> Result<(), E> {
        self.tx_buffer.skip_padding();
        self.emit_first(cx, emit)?;
        self.tx_buffer.take_first();
        Ok(())
    }
}
