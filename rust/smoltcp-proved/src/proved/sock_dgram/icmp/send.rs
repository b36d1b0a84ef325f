// Made from crates/sock_dgram/src/icmp/send.rt by rust/translate: change it there.
//! ICMP messages that the program sends.

use crate::proved::ip_wire::IpAddress;
use crate::proved::sock_dgram::error::SendError;
use crate::proved::sock_dgram::icmp::socket::Socket;
use crate::proved::sock_dgram::queue::store;

impl<'a> Socket<'a> {
    // Puts a message of `size` bytes behind the others, as they stand in the payload storage. Answers whether it may be
    // sent so, whether there was room, and where its bytes begin.
    pub(crate) fn claim(&mut self, size: usize, endpoint: IpAddress) -> (bool, bool, usize) {
        if endpoint.is_unspecified() {
            return (false, false, 0);
        }
        let (taken, from) = self.tx_buffer.claim(size, endpoint);
        (true, taken, from)
    }

    /// Puts an ICMP message of `size` bytes into the transmit queue, and lends its bytes. What stands in them as the
    /// borrow ends is the message.
    ///
    /// # Errors
    /// `Unaddressable` and `BufferFull` as `send_slice`; the queue then stays as it was.
    pub fn send(&mut self, size: usize, endpoint: IpAddress) -> Result<&mut [u8], SendError> {
        let (sendable, taken, from) = self.claim(size, endpoint);
        if !sendable {
            return Err(SendError::Unaddressable);
        }
        if !taken {
            return Err(SendError::BufferFull);
        }
        Ok(self.tx_buffer.part_mut(from, size))
    }

    /// Puts an ICMP message whose bytes `f` writes into the transmit queue: `f` is lent `max_size` bytes and answers
    /// how many of them, from the first on, are the message. This count is answered.
    ///
    /// # Errors
    /// `Unaddressable` and `BufferFull` as `send_slice`, for a message of `max_size` bytes; the queue then stays as it
    /// was.
    pub fn send_with<F: FnOnce(&mut [u8]) -> usize>(
        &mut self,
        max_size: usize,
        endpoint: IpAddress,
        f: F,
    ) -> Result<usize, SendError> {
        if endpoint.is_unspecified() {
            return Err(SendError::Unaddressable);
        }
        self.tx_buffer.enqueue_with_infallible(max_size, endpoint, f).map_err(|_| SendError::BufferFull)
    }

    /// Puts an ICMP message of these bytes into the transmit queue.
    ///
    /// # Errors
    /// `Unaddressable` where the destination is unspecified; else `BufferFull` where the transmit buffer has no room
    /// for it. A refusal leaves the queue as it was. The socket need not be open.
    pub fn send_slice(&mut self, data: &[u8], endpoint: IpAddress) -> Result<(), SendError> {
        if endpoint.is_unspecified() {
            return Err(SendError::Unaddressable);
        }
        if !store(&mut self.tx_buffer, endpoint, data) {
            return Err(SendError::BufferFull);
        }
        Ok(())
    }
}
