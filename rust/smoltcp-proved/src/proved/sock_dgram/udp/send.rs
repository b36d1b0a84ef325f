// Made from crates/sock_dgram/src/udp/send.rt by rust/translate: change it there.
//! Datagrams that the program sends.

use crate::proved::ip_wire::IpAddress;
use crate::proved::sock_dgram::error::SendError;
use crate::proved::sock_dgram::queue::store;
use crate::proved::sock_dgram::udp::socket::{Socket, UdpMetadata};

// Whether a source that is known is of the destination's version.
fn is_possible_source(source: Option<IpAddress>, dst: IpAddress) -> bool {
    match source {
        None => true,
        Some(source) => source.version() == dst.version(),
    }
}

impl<'a> Socket<'a> {
    // The address given, else the bound one.
    pub(crate) fn known_source(&self, meta: &UdpMetadata) -> Option<IpAddress> {
        meta.local_address.or(self.endpoint.addr)
    }

    /// Whether `send` takes such a datagram where there is room: the socket is open, the destination has an address and
    /// a port, and the source, where it is known, is of its version of IP.
    pub fn is_sendable(&self, meta: &UdpMetadata) -> bool {
        self.is_open()
            && !meta.endpoint.addr.is_unspecified()
            && meta.endpoint.port != 0
            && is_possible_source(self.known_source(meta), meta.endpoint.addr)
    }

    // Puts a datagram of `size` bytes behind the others, as they stand in the payload storage. Answers whether it may
    // be sent so, whether there was room, and where its bytes begin.
    pub(crate) fn claim(&mut self, size: usize, meta: UdpMetadata) -> (bool, bool, usize) {
        if !self.is_sendable(&meta) {
            return (false, false, 0);
        }
        let (taken, from) = self.tx_buffer.claim(size, meta);
        (true, taken, from)
    }

    /// Puts a datagram of `size` bytes into the transmit queue, and lends its bytes. What stands in them as the borrow
    /// ends is the payload.
    ///
    /// # Errors
    /// `Unaddressable` and `BufferFull` as `send_slice`; the queue then stays as it was.
    pub fn send(&mut self, size: usize, meta: impl Into<UdpMetadata>) -> Result<&mut [u8], SendError> {
        let meta = meta.into();
        let (sendable, taken, from) = self.claim(size, meta);
        if !sendable {
            return Err(SendError::Unaddressable);
        }
        if !taken {
            return Err(SendError::BufferFull);
        }
        Ok(self.tx_buffer.part_mut(from, size))
    }

    /// Puts a datagram whose bytes `f` writes into the transmit queue: `f` is lent `max_size` bytes and answers how
    /// many of them, from the first on, are the payload. This count is answered.
    ///
    /// # Errors
    /// `Unaddressable` and `BufferFull` as `send_slice`, for a datagram of `max_size` bytes; the queue then stays as it
    /// was.
    pub fn send_with<F: FnOnce(&mut [u8]) -> usize>(
        &mut self,
        max_size: usize,
        meta: impl Into<UdpMetadata>,
        f: F,
    ) -> Result<usize, SendError> {
        let meta = meta.into();
        if !self.is_sendable(&meta) {
            return Err(SendError::Unaddressable);
        }
        self.tx_buffer.enqueue_with_infallible(max_size, meta, f).map_err(|_| SendError::BufferFull)
    }

    /// Puts a datagram of these bytes into the transmit queue.
    ///
    /// # Errors
    /// `Unaddressable` where the socket is not open, the destination's address is unspecified or its port zero, or the
    /// source (the address given, else the bound one) is of another version of IP than the destination; else
    /// `BufferFull` where the transmit buffer has no room for it. A refusal leaves the queue as it was.
    pub fn send_slice(&mut self, data: &[u8], meta: impl Into<UdpMetadata>) -> Result<(), SendError> {
        let meta = meta.into();
        if !self.is_sendable(&meta) {
            return Err(SendError::Unaddressable);
        }
        if !store(&mut self.tx_buffer, meta, data) {
            return Err(SendError::BufferFull);
        }
        Ok(())
    }
}
