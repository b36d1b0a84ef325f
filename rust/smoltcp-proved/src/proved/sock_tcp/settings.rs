// Made from crates/sock_tcp/src/settings.rt by rust/translate: change it there.
//! What a user may set.

use crate::proved::net_base::time::{Duration, Instant};
use crate::proved::sock_core::congestion::{self, AnyController, NoControl, Reno};
use crate::proved::sock_tcp::control_block::ControlBlock;
use crate::proved::sock_tcp::socket::Socket;
use crate::proved::sock_tcp::timer::Timer;

/// The kinds of congestion control.
#[derive(Debug, Clone, Copy, PartialEq, Eq)]
pub enum CongestionControl {
    /// None: any number of bytes may be in flight.
    None,
    /// Reno (RFC 5681).
    Reno,
    /// CUBIC (RFC 9438).
    #[cfg(feature = "socket-tcp-cubic")]
    Cubic,
}

// The longest that the lowest retransmission timeout may be, in milliseconds.
const LONGEST: u64 = 60_000;

// In whole milliseconds, between one and a minute.
fn least_timeout(duration: Duration) -> u32 {
    duration.total_millis().min(LONGEST).max(1) as u32
}

impl CongestionControl {
    // A new controller of the kind.
    pub(crate) fn controller(self) -> AnyController {
        match self {
            CongestionControl::None => AnyController::None(NoControl),
            CongestionControl::Reno => AnyController::Reno(Reno::new()),
            #[cfg(feature = "socket-tcp-cubic")]
            CongestionControl::Cubic => AnyController::Cubic(congestion::Cubic::new()),
        }
    }
}

impl<'a> ControlBlock<'a> {
    pub(crate) fn congestion_control(&self) -> CongestionControl {
        match self.congestion_controller {
            AnyController::None(_) => CongestionControl::None,
            AnyController::Reno(_) => CongestionControl::Reno,
            #[cfg(feature = "socket-tcp-cubic")]
            AnyController::Cubic(_) => CongestionControl::Cubic,
        }
    }

    pub(crate) fn set_keep_alive(&mut self, interval: Option<Duration>) {
        self.keep_keep_alive(interval);
        if let (Some(_), Timer::Idle { keep_alive_at: None }) = (interval, self.timer) {
            self.timer = Timer::Idle { keep_alive_at: Some(Instant::ZERO) };
        }
    }
}

impl<'a, G> Socket<'a, G> {
    /// The kind of congestion control; Reno in a new socket.
    pub fn congestion_control(&self) -> CongestionControl {
        self.control_block.congestion_control()
    }

    /// Puts in a new controller of this kind, also where there is one of the kind.
    pub fn set_congestion_control(&mut self, congestion_control: CongestionControl) {
        self.control_block.congestion_controller = congestion_control.controller();
    }

    /// How long the peer may be silent before the connection is aborted; for ever where there is none, as in a new
    /// socket; five minutes once `Rules::Rfc` is chosen (RFC 9293, section 3.9.1.1).
    pub fn timeout(&self) -> Option<Duration> {
        self.control_block.timeout()
    }

    /// Sets the user timeout, of at most 2^61 microseconds, or none. It counts from the last segment that was heard, or
    /// from the first dispatch since bytes joined an empty queue. By `Rules::Rfc` it runs while a SYN, bytes or a FIN
    /// are not acknowledged (RFC 5482), and on an idle connection with keep-alives an interval longer, so that it ends
    /// one whose peer does not answer them; by smoltcp's rules it always runs.
    pub fn set_timeout(&mut self, duration: Option<Duration>) {
        self.control_block.keep_timeout(duration);
    }

    /// The lowest retransmission timeout that a measured round trip makes: a second in a new socket (RFC 6298, section
    /// 2.4).
    pub fn min_rto(&self) -> Duration {
        Duration::from_millis(self.control_block.rtte.least_timeout() as u64)
    }

    /// Sets the lowest retransmission timeout, for all connections from now on: in whole milliseconds, where less than
    /// one counts as one, and more than a minute as a minute. It counts from the next measured round trip on; before
    /// the first the timeout is a second, or three (RFC 6298, sections 2.1 and 5.7). Linux has 200 milliseconds.
    /// smoltcp has no such call.
    pub fn set_min_rto(&mut self, duration: Duration) {
        self.control_block.rtte.set_least_timeout(least_timeout(duration));
    }

    /// How long an acknowledgement may wait for data to go with: 10 milliseconds in a new socket.
    pub fn ack_delay(&self) -> Option<Duration> {
        self.control_block.ack_delay()
    }

    /// Sets how long an acknowledgement may wait, at most 2^61 microseconds, or lets none wait.
    pub fn set_ack_delay(&mut self, duration: Option<Duration>) {
        self.control_block.keep_ack_delay(duration);
    }

    /// Whether small segments wait while bytes are in flight (RFC 9293, section 3.7.4); they do in a new socket.
    pub fn nagle_enabled(&self) -> bool {
        self.control_block.nagle
    }

    /// Sets whether small segments wait while bytes are in flight.
    pub fn set_nagle_enabled(&mut self, enabled: bool) {
        self.control_block.nagle = enabled;
    }

    /// How long a connection is idle before a keep-alive goes out; none does in a new socket (RFC 9293, section 3.8.4).
    pub fn keep_alive(&self) -> Option<Duration> {
        self.control_block.keep_alive()
    }

    /// Sets the interval of keep-alives, of at most 2^61 microseconds, or lets none go out. Where none is to come and
    /// nothing else is waited for, the first goes out at the next dispatch.
    pub fn set_keep_alive(&mut self, interval: Option<Duration>) {
        self.control_block.set_keep_alive(interval);
    }

    /// The hop limit of what is sent, where one is set; 64 where none is, as in a new socket.
    pub fn hop_limit(&self) -> Option<u8> {
        self.control_block.hop_limit
    }

    /// Sets the hop limit of what is sent, 1 to 255, or none for 64 (RFC 1122, section 3.2.1.7). Replies always have
    /// 64.
    pub fn set_hop_limit(&mut self, hop_limit: Option<u8>) {
        self.control_block.hop_limit = hop_limit;
    }

    /// Lets a SYN|ACK wait, or go out, as smoltcp.
    pub fn pause_synack(&mut self, pause: bool) {
        self.control_block.synack_paused = pause;
    }
}
