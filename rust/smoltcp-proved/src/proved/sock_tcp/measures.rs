// Made from crates/sock_tcp/src/measures.rt by rust/translate: change it there.
//! What a socket has measured of its connection. smoltcp keeps these to itself.

use crate::proved::control_wire::TcpSeqNumber;
use crate::proved::net_base::time::{Duration, Instant};
use crate::proved::sock_core::congestion::Controller;
use crate::proved::sock_tcp::socket::Socket;
use crate::proved::sock_tcp::timer::Timer;

impl<'a, G> Socket<'a, G> {
    /// The peer's window as it gave it last (SND.WND; RFC 9293, section 3.3.1), in bytes.
    pub fn remote_window(&self) -> usize {
        self.control_block.remote_win_len
    }

    /// The number of the first byte that the peer has not acknowledged (SND.UNA; RFC 9293, section 3.3.1).
    pub fn send_unacknowledged(&self) -> TcpSeqNumber {
        self.control_block.local_seq_no
    }

    /// The number of the next byte that is expected of the peer (RCV.NXT; RFC 9293, section 3.3.1).
    pub fn receive_next(&self) -> TcpSeqNumber {
        self.control_block.next_ack()
    }

    /// When TIME-WAIT ends, in this state (RFC 9293, section 3.4.2).
    pub fn time_wait_end(&self) -> Option<Instant> {
        match self.control_block.timer {
            Timer::Close { expires_at } => Some(expires_at),
            _ => None,
        }
    }

    /// How many bytes congestion control lets be in flight (RFC 5681, section 3.1); 2^64 - 1 without a controller.
    pub fn congestion_window(&self) -> usize {
        self.control_block.congestion_controller.window()
    }

    /// The smoothed round-trip time (SRTT; RFC 6298, section 2), in milliseconds; 0 before the first measurement.
    pub fn smoothed_round_trip(&self) -> u32 {
        self.control_block.rtte.srtt()
    }

    /// How long the socket waits for an acknowledgement before it sends again (RTO; RFC 6298, section 2): 1 to 60
    /// seconds.
    pub fn retransmission_timeout(&self) -> Duration {
        self.control_block.rtte.retransmission_timeout()
    }
}
