// Made from crates/sock_dgram/src/icmp/receive.rt by rust/translate: change it there.
//! ICMP messages that the program receives.

use crate::proved::ip_wire::IpAddress;
use crate::proved::sock_dgram::error::RecvError;
use crate::proved::sock_dgram::icmp::socket::Socket;
use crate::proved::sock_dgram::queue::take_into;

impl<'a> Socket<'a> {
    /// Takes the first message of the receive queue, and lends its bytes.
    ///
    /// # Errors
    /// `Exhausted` where there is none.
    pub fn recv(&mut self) -> Result<(&[u8], IpAddress), RecvError> {
        let (remote, (from, size)) = self.rx_buffer.take_first().ok_or(RecvError::Exhausted)?;
        Ok((self.rx_buffer.part(from, size), remote))
    }

    /// Takes the first message of the receive queue and copies its bytes into `data`. Answers how many they are, and
    /// where it came from.
    ///
    /// # Errors
    /// `Exhausted` where there is none; `Truncated` where `data` is too short: the message is gone then, and `data` as
    /// it was.
    pub fn recv_slice(&mut self, data: &mut [u8]) -> Result<(usize, IpAddress), RecvError> {
        take_into(&mut self.rx_buffer, data)
    }
}
