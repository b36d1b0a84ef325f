// Made from crates/host_guard/src/guard.rt by rust/translate: change it there.
//! What a host looks at beside each of its TCP sockets, in each round of its loop.

use crate::proved::net_base::time::{Duration, Instant};
use crate::proved::sock_core::PollAt;
use crate::proved::sock_tcp::{Socket, State};

/// A peer that is silent for so long, while something waits, has gone.
pub const TIMEOUT: Duration = Duration { micros: 60_000_000 };

/// A peer that has been silent for so long is asked whether it is there: soon enough that answers may be lost.
pub const KEEP_ALIVE: Duration = Duration { micros: 15_000_000 };

/// How long a socket that a SYN has opened waits for the rest of the handshake: time for the SYN|ACK to be sent again
/// after a second, and short, as the SYN may have come from an address where nobody is.
pub const HANDSHAKE: Duration = Duration { micros: 3_000_000 };

/// How long FIN-WAIT-2 may last, as `tcp_fin_timeout` of Linux: only the peer can end it, and need not.
pub const LONGEST_FIN_WAIT_2: Duration = Duration { micros: 60_000_000 };

/// How long after a dispatch in FIN-WAIT-2 there is none. Nothing but acknowledgements is left to send in this state,
/// and with a probe timer that is left over every dispatch emits one: so they are 50 in a second at most.
pub const PACE: Duration = Duration { micros: 20_000 };

/// How many dispatches a socket has at one moment at most: more than the 45 segments of full size that a queue of 65536
/// bytes holds, so that only what goes on without end is cut.
pub const TURNS: usize = 64;

/// What a host remembers beside a TCP socket.
#[derive(Debug)]
pub struct Guard {
    /// Since when the socket is in FIN-WAIT-2; none in the other states.
    pub since: Option<Instant>,
    /// When it was last dispatched in FIN-WAIT-2.
    pub last: Option<Instant>,
    /// When it was last dispatched in any state, and how often at that moment.
    pub moment: Option<Instant>,
    pub taken: usize,
}

impl Guard {
    /// Of a socket that is not in FIN-WAIT-2.
    pub fn new() -> Guard {
        Guard { since: None, last: None, moment: None, taken: 0 }
    }

    /// Looks at the socket at this moment: to be called in each round, before the socket is dispatched.
    ///
    /// Sets the user timeout: `HANDSHAKE` in LISTEN and SYN-RECEIVED, `TIMEOUT` in the other states. Aborts a
    /// connection that has been in FIN-WAIT-2 for `LONGEST_FIN_WAIT_2` or longer, counted from the first look that saw
    /// it there, whatever has come from the peer since. Where the time goes back, it is counted from the earlier
    /// moment.
    pub fn watch<G>(&mut self, socket: &mut Socket<'_, G>, now: Instant) {
        let state = socket.state();
        self.note(state, now);
        socket.set_timeout(Some(timeout_in(state)));
        if has_lasted(self.since, now) {
            socket.abort();
        }
    }

    fn note(&mut self, state: State, now: Instant) {
        match state {
            State::FinWait2 => {
                self.since = Some(first_seen(self.since, now));
            }
            _ => {
                self.since = None;
                self.last = None;
            }
        }
    }

    /// Whether `take_turn` would allow a dispatch at this moment.
    pub fn may_take_turn(&self, now: Instant) -> bool {
        taken_at(self.moment, self.taken, now) < TURNS && may_dispatch(self.since, self.last, now)
    }

    /// Whether the socket may be dispatched at this moment: at most `TURNS` times, and in FIN-WAIT-2 not within `PACE`
    /// of the last dispatch that was allowed there. What is allowed is remembered, so that a loop which asks before
    /// each dispatch ends, however often it is begun at one moment.
    pub fn take_turn(&mut self, now: Instant) -> bool {
        let taken = taken_at(self.moment, self.taken, now);
        let may = taken < TURNS && may_dispatch(self.since, self.last, now);
        self.moment = Some(now);
        self.taken = taken;
        if may {
            self.taken = taken + 1;
            if self.since.is_some() {
                self.last = Some(now);
            }
        }
        may
    }

    /// When the host is to look at the socket next, whose own `poll_at` answered `asked`: in FIN-WAIT-2 not before
    /// `PACE` after the last dispatch, and at the latest when the connection is to be aborted; in the other states when
    /// the socket asks.
    pub fn poll_at(&self, asked: PollAt) -> PollAt {
        let Some(since) = self.since else {
            return asked;
        };
        let asked = match self.last {
            None => asked,
            Some(last) => not_before(after(last, PACE), asked),
        };
        earlier(asked, after(since, LONGEST_FIN_WAIT_2))
    }
}

/// The user timeout in a state: short until a handshake is done that a SYN began.
pub fn timeout_in(state: State) -> Duration {
    match state {
        State::Listen | State::SynReceived => HANDSHAKE,
        _ => TIMEOUT,
    }
}

fn first_seen(since: Option<Instant>, now: Instant) -> Instant {
    match since {
        Some(since) if since.micros <= now.micros => since,
        _ => now,
    }
}

fn has_lasted(since: Option<Instant>, now: Instant) -> bool {
    match since {
        Some(since) => LONGEST_FIN_WAIT_2 <= now - since,
        None => false,
    }
}

fn may_dispatch(since: Option<Instant>, last: Option<Instant>, now: Instant) -> bool {
    match (since, last) {
        (Some(_), Some(last)) => PACE.micros <= (now - last).micros,
        _ => true,
    }
}

fn taken_at(moment: Option<Instant>, taken: usize, now: Instant) -> usize {
    match moment {
        Some(moment) if (now - moment).micros == 0 => taken,
        _ => 0,
    }
}

fn after(moment: Instant, delay: Duration) -> Instant {
    moment + delay
}

fn not_before(moment: Instant, asked: PollAt) -> PollAt {
    match asked {
        PollAt::Now => PollAt::Time(moment),
        PollAt::Time(at) => PollAt::Time(if moment.micros <= at.micros { at } else { moment }),
        PollAt::Ingress => PollAt::Ingress,
    }
}

fn earlier(asked: PollAt, end: Instant) -> PollAt {
    match asked {
        PollAt::Now => PollAt::Now,
        PollAt::Time(at) => PollAt::Time(if at.micros <= end.micros { at } else { end }),
        PollAt::Ingress => PollAt::Time(end),
    }
}
