// Made from crates/sock_tcp/src/round_trips.rt by rust/translate: change it there.
//! Round trips by timestamps, by the RFCs' rules (RFC 6298, section 3; RFC 7323, section 4).
//!
//! What is kept is the timestamp and the time of the first segment that is sent again while nothing is timed. An echo
//! of it gives a sample. An echo of a later timestamp ends the timing, as that sending or its acknowledgement was lost;
//! an earlier one, or none, changes nothing. A timeout and a sample by numbers end the timing, and a fast
//! retransmission does not.

use crate::proved::control_wire::TcpTimestampRepr;
use crate::proved::net_base::time::Instant;
use crate::proved::sock_core::rtte::RttEstimator;
use crate::proved::sock_tcp::control_block::ControlBlock;
use crate::proved::sock_tcp::emission::Emitted;
use crate::proved::sock_tcp::rules::Rules;
use crate::proved::sock_tcp::timer::Timer;

// The timestamp that a segment has.
#[inline(always)]
pub(crate) fn stamp_of(timestamp: Option<TcpTimestampRepr>) -> Option<u32> {
    match timestamp {
        None => None,
        Some(timestamp) => Some(timestamp.tsval),
    }
}

// The timestamp that it echoes.
pub(crate) fn echo_of(timestamp: Option<TcpTimestampRepr>) -> Option<u32> {
    match timestamp {
        None => None,
        Some(timestamp) => Some(timestamp.tsecr),
    }
}

impl Timer {
    // Where a sample was taken, the retransmission timer begins anew.
    fn begun_again(self, sample: bool, now: Instant, rtte: &RttEstimator) -> Timer {
        match self {
            Timer::Retransmit { .. } if sample => Timer::retransmit(now, rtte),
            _ => self,
        }
    }
}

impl<'a> ControlBlock<'a> {
    // Something goes out that takes numbers: it is timed, and by the RFCs' rules the socket was idle no longer.
    #[inline(always)]
    pub(crate) fn measure_sending(&mut self, now: Instant, emitted: &Emitted) {
        match crate::kit::in_force(self.rules) {
            Rules::Smoltcp => self.rtte.on_send(now, emitted.end),
            Rules::Rfc => {
                self.restart_if_idle(now);
                self.measure_by_rfc(now, emitted);
            }
        }
    }

    fn measure_by_rfc(&mut self, now: Instant, emitted: &Emitted) {
        self.rtte.on_send(now, emitted.end);
        if let Some(stamp) = emitted.stamp {
            if !self.state.is_opening() {
                self.rtte.on_stamp(now, stamp);
            }
        }
    }

    // A segment was heard with this echo; news: it acknowledges something new.
    pub(crate) fn take_echo(&mut self, news: bool, echo: Option<u32>, now: Instant) {
        if let (true, Some(echo)) = (news, echo) {
            let sample = self.rtte.on_echo(now, echo);
            self.timer = self.timer.begun_again(sample, now, &self.rtte);
        }
    }
}
