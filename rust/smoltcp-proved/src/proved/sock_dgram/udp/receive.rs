// Made from crates/sock_dgram/src/udp/receive.rt by rust/translate: change it there.
//! Datagrams that the program receives.

use crate::proved::sock_dgram::error::RecvError;
use crate::proved::sock_dgram::queue::{copy_first, take_into};
use crate::proved::sock_dgram::udp::socket::{Socket, UdpMetadata};

impl<'a> Socket<'a> {
    /// Takes the first datagram of the receive queue, and lends its bytes.
    ///
    /// # Errors
    /// `Exhausted` where there is none.
    pub fn recv(&mut self) -> Result<(&[u8], UdpMetadata), RecvError> {
        let (meta, (from, size)) = self.rx_buffer.take_first().ok_or(RecvError::Exhausted)?;
        Ok((self.rx_buffer.part(from, size), meta))
    }

    /// Lends the bytes of the first datagram of the receive queue, which stays.
    ///
    /// # Errors
    /// `Exhausted` where there is none.
    pub fn peek(&mut self) -> Result<(&[u8], &UdpMetadata), RecvError> {
        self.rx_buffer.skip_padding();
        let (meta, bytes) = self.rx_buffer.first().map_err(|_| RecvError::Exhausted)?;
        Ok((bytes, meta))
    }

    /// Copies the bytes of the first datagram of the receive queue into `data`; the datagram stays. Answers how many
    /// they are, and where it came from.
    ///
    /// # Errors
    /// `Exhausted` where there is none; `Truncated` where `data` is too short, which then stays as it was.
    pub fn peek_slice(&mut self, data: &mut [u8]) -> Result<(usize, &UdpMetadata), RecvError> {
        self.rx_buffer.skip_padding();
        copy_first(&self.rx_buffer, data)
    }

    /// Takes the first datagram of the receive queue and copies its bytes into `data`. Answers how many they are, and
    /// where it came from.
    ///
    /// # Errors
    /// `Exhausted` where there is none; `Truncated` where `data` is too short: the datagram is gone then, and `data` as
    /// it was.
    pub fn recv_slice(&mut self, data: &mut [u8]) -> Result<(usize, UdpMetadata), RecvError> {
        take_into(&mut self.rx_buffer, data)
    }
}
