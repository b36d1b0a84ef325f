// Made from crates/sock_dgram/src/raw/send.rt by rust/translate: change it there.
//! Packets that the program sends.

use crate::proved::sock_dgram::queue::store;
use crate::proved::sock_dgram::raw::error::SendError;
use crate::proved::sock_dgram::raw::socket::Socket;

impl<'a> Socket<'a> {
    // Puts a packet of `size` bytes behind the others, as they stand in the payload storage. Answers whether there was
    // room, and where they begin.
    pub(crate) fn claim(&mut self, size: usize) -> (bool, usize) {
        self.tx_buffer.claim(size, ())
    }

    /// Puts a packet of `size` bytes, its IP header included, into the transmit queue, and lends its bytes. What stands
    /// in them as the borrow ends is the packet.
    ///
    /// # Errors
    /// `BufferFull` as `send_slice`; the queue then stays as it was.
    pub fn send(&mut self, size: usize) -> Result<&mut [u8], SendError> {
        let (taken, from) = self.claim(size);
        if !taken {
            return Err(SendError::BufferFull);
        }
        Ok(self.tx_buffer.part_mut(from, size))
    }

    /// Puts a packet whose bytes `f` writes into the transmit queue: `f` is lent `max_size` bytes and answers how many
    /// of them, from the first on, are the packet. This count is answered.
    ///
    /// # Errors
    /// `BufferFull` as `send_slice`, for a packet of `max_size` bytes; the queue then stays as it was.
    pub fn send_with<F: FnOnce(&mut [u8]) -> usize>(
        &mut self,
        max_size: usize,
        f: F,
    ) -> Result<usize, SendError> {
        self.tx_buffer.enqueue_with_infallible(max_size, (), f).map_err(|_| SendError::BufferFull)
    }

    /// Puts a packet of these bytes, its IP header first, into the transmit queue.
    ///
    /// # Errors
    /// `BufferFull` where the transmit buffer has no room for it; the queue then stays as it was.
    pub fn send_slice(&mut self, data: &[u8]) -> Result<(), SendError> {
        if !store(&mut self.tx_buffer, (), data) {
            return Err(SendError::BufferFull);
        }
        Ok(())
    }
}
