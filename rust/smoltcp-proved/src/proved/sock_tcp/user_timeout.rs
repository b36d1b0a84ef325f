// Made from crates/sock_tcp/src/user_timeout.rt by rust/translate: change it there.
//! The user timeout (RFC 9293, sections 3.8.3 and 3.9.1.1; RFC 5482).

use crate::proved::net_base::time::Duration;
use crate::proved::sock_core::PollAt;
use crate::proved::sock_tcp::control_block::ControlBlock;
use crate::proved::sock_tcp::rules::Rules;
use crate::proved::sock_tcp::state::State;
use crate::proved::sock_tcp::timer::after;

// The global default of RFC 9293, section 3.9.1.1.
const USUAL_TIMEOUT: Duration = Duration { micros: 300_000_000 };

// The longest time, 2^61 microseconds.
const LONGEST: u64 = 2_305_843_009_213_693_952;

// The user timeout once these rules are chosen.
pub(crate) fn timeout_chosen(rules: Rules, timeout: Option<Duration>) -> Option<Duration> {
    match (rules, timeout) {
        (Rules::Rfc, None) => Some(USUAL_TIMEOUT),
        _ => timeout,
    }
}

// How long a peer that owes nothing may be silent: an interval of keep-alives more, and for ever where there are none.
fn idle_timeout(timeout: Option<Duration>, interval: Option<Duration>) -> Option<Duration> {
    match (timeout, interval) {
        (Some(timeout), Some(interval)) => {
            Some(Duration { micros: (interval.micros + timeout.micros).min(LONGEST) })
        }
        _ => None,
    }
}

impl State {
    // Whether something is not acknowledged: a SYN, bytes of the transmit queue, or a FIN.
    fn owes_ack(self, empty: bool) -> bool {
        match self {
            State::SynSent | State::SynReceived => true,
            State::Established | State::CloseWait => !empty,
            State::FinWait1 | State::Closing | State::LastAck => true,
            _ => false,
        }
    }

    // Whether keep-alives go out while nothing is owed.
    fn may_be_idle(self) -> bool {
        matches!(self, State::Established | State::CloseWait | State::FinWait2)
    }
}

impl<'a> ControlBlock<'a> {
    // When the user timeout is over. By smoltcp's rules it stands in line, as each dispatch asks.
    #[inline(always)]
    pub(crate) fn timeout_poll(&self) -> PollAt {
        if !self.has_timeout {
            return self.no_timeout_poll();
        }
        match crate::kit::in_force(self.rules) {
            Rules::Smoltcp => self.set_timeout_poll(),
            Rules::Rfc => self.timeout_poll_by_rfc(),
        }
    }

    // None is set.
    #[inline(always)]
    fn no_timeout_poll(&self) -> PollAt {
        PollAt::Ingress
    }

    // The one that is set, where it runs.
    #[inline(always)]
    fn set_timeout_poll(&self) -> PollAt {
        if self.has_timeout && self.has_remote_last_ts {
            PollAt::Time(after(self.remote_last_ts, self.timeout))
        } else {
            PollAt::Ingress
        }
    }

    #[inline(never)]
    fn timeout_poll_by_rfc(&self) -> PollAt {
        if self.state.owes_ack(self.tx_buffer.is_empty()) {
            self.set_timeout_poll()
        } else {
            self.idle_timeout_poll()
        }
    }

    // Apart, as most connections that are asked owe something, or have no keep-alives.
    #[inline(never)]
    fn idle_timeout_poll(&self) -> PollAt {
        match (self.silence(), self.remote_last_ts()) {
            (Some(timeout), Some(last)) => PollAt::Time(after(last, timeout)),
            _ => PollAt::Ingress,
        }
    }

    // How long the peer may be silent: the user timeout runs while something is owed.
    pub(crate) fn silence(&self) -> Option<Duration> {
        if self.state.owes_ack(self.tx_buffer.is_empty()) {
            self.timeout()
        } else if self.state.may_be_idle() {
            idle_timeout(self.timeout(), self.keep_alive())
        } else {
            None
        }
    }

    // A close with an empty queue: whether the acknowledgement of the FIN is waited for from now on.
    pub(crate) fn begins_waiting(&self, empty: bool) -> bool {
        match (crate::kit::in_force(self.rules), self.state) {
            (Rules::Rfc, State::Established | State::CloseWait) => empty,
            _ => false,
        }
    }
}
