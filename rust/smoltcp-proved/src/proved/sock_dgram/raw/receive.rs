// Made from crates/sock_dgram/src/raw/receive.rt by rust/translate: change it there.
//! Packets that the program receives.

use crate::proved::sock_dgram::error::RecvError;
use crate::proved::sock_dgram::queue::{copy_first, take_into};
use crate::proved::sock_dgram::raw::socket::Socket;

impl<'a> Socket<'a> {
    /// Takes the first packet of the receive queue, and lends its bytes.
    ///
    /// # Errors
    /// `Exhausted` where there is none.
    pub fn recv(&mut self) -> Result<&[u8], RecvError> {
        let (_, (from, size)) = self.rx_buffer.take_first().ok_or(RecvError::Exhausted)?;
        Ok(self.rx_buffer.part(from, size))
    }

    /// Lends the bytes of the first packet of the receive queue, which stays.
    ///
    /// # Errors
    /// `Exhausted` where there is none.
    pub fn peek(&mut self) -> Result<&[u8], RecvError> {
        self.rx_buffer.skip_padding();
        let (_, bytes) = self.rx_buffer.first().map_err(|_| RecvError::Exhausted)?;
        Ok(bytes)
    }

    /// Copies the bytes of the first packet of the receive queue into `data`; the packet stays. Answers how many they
    /// are.
    ///
    /// # Errors
    /// `Exhausted` where there is none; `Truncated` where `data` is too short, which then stays as it was.
    pub fn peek_slice(&mut self, data: &mut [u8]) -> Result<usize, RecvError> {
        self.rx_buffer.skip_padding();
        let (size, _) = copy_first(&self.rx_buffer, data)?;
        Ok(size)
    }

    /// Takes the first packet of the receive queue and copies its bytes into `data`. Answers how many they are.
    ///
    /// # Errors
    /// `Exhausted` where there is none; `Truncated` where `data` is too short: the packet is gone then, and `data` as
    /// it was.
    pub fn recv_slice(&mut self, data: &mut [u8]) -> Result<usize, RecvError> {
        let (size, _) = take_into(&mut self.rx_buffer, data)?;
        Ok(size)
    }
}
