// Made from crates/net_host/src/sight.rt by rust/translate: change it there.
//! What a guard sees of its socket, as numbers: what the peer is waited for is told by a table, without a branch for
//! each state.

use crate::proved::control_wire::TcpSeqNumber;
use crate::proved::net_base::time::{Duration, Instant};
use crate::proved::net_host::guard::{Guard, Kind, NO_MOMENT};
use crate::proved::net_host::limits::Limits;
use crate::sockets::sock_tcp::{Socket, State};

/// What the peer is waited for, the number of the first byte that waits, since when, and when that is to end.
#[derive(Debug, Clone, Copy)]
pub struct Sight {
    pub(crate) kind: Kind,
    pub(crate) number: TcpSeqNumber,
    pub(crate) since: i64,
    pub(crate) end: i64,
}

// By the state alone, in the order of the states.
static KINDS: [Kind; 11] = [
    Kind::Free,
    Kind::Free,
    Kind::Free,
    Kind::Handshake,
    Kind::Stuck,
    Kind::Closing,
    Kind::FinWait2,
    Kind::Stuck,
    Kind::Closing,
    Kind::Closing,
    Kind::Free,
];

// By the state alone; `Stuck` where it is for the bytes that wait to say. Read from a table, so that
// what follows does not go a way of its own for each state.
#[inline(always)]
fn kind_in(state: State) -> Kind {
    KINDS[state as usize]
}

#[inline(always)]
fn kind_by(kind: Kind, empty: bool) -> Kind {
    match kind {
        Kind::Stuck if empty => Kind::Free,
        _ => kind,
    }
}

/// What the peer is waited for.
#[inline(always)]
pub(crate) fn kind_of<G>(socket: &Socket<'_, G>) -> Kind {
    let empty = socket.send_queue() == 0;
    kind_by(kind_in(socket.state()), empty)
}

// Whether the peer is waited for, for what it was.
#[inline(always)]
fn is_same(kind: Kind, number: TcpSeqNumber, before: Kind, old: TcpSeqNumber) -> bool {
    match kind {
        Kind::Free => false,
        Kind::Stuck | Kind::Closing => number.0 == old.0 && matches!(before, Kind::Stuck | Kind::Closing),
        _ => kind == before,
    }
}

// Since when: the earlier of what was known and now.
#[inline(always)]
fn since_of(same: bool, since: i64, now: Instant) -> i64 {
    if same && since != NO_MOMENT && since <= now.micros { since } else { now.micros }
}

// When that is to end.
#[inline(always)]
fn end_of(limit: (bool, u64), since: i64) -> i64 {
    if limit.0 {
        let delay = Duration { micros: limit.1.min(1 << 60) };
        let end = Instant { micros: since } + delay;
        end.micros
    } else {
        NO_MOMENT
    }
}

// Whether there is this moment, and it has come.
#[inline(always)]
fn has_come(end: i64, now: Instant) -> bool {
    end != NO_MOMENT && end <= now.micros
}

impl Sight {
    /// Nothing is waited for.
    pub(crate) fn none() -> Sight {
        Sight { kind: Kind::Free, number: TcpSeqNumber(0), since: NO_MOMENT, end: NO_MOMENT }
    }

    /// Whether it has lasted too long by now.
    pub(crate) fn is_over(&self, now: Instant) -> bool {
        has_come(self.end, now)
    }
}

impl Guard {
    // What is waited for since it was seen first, where that is something.
    #[inline(always)]
    fn waits(&self, limits: &Limits, kind: Kind, number: TcpSeqNumber, now: Instant) -> Sight {
        let same = is_same(kind, number, self.kind, self.number);
        let since = since_of(same, self.since, now);
        let end = end_of(limits.of_kind(kind), since);
        Sight { kind, number, since, end }
    }

    /// Whether bytes wait in ESTABLISHED or CLOSE-WAIT, the first with the number that it had at the last look.
    #[inline(always)]
    pub(crate) fn still_waits<G>(&self, socket: &Socket<'_, G>) -> bool {
        matches!(self.kind, Kind::Stuck)
            && matches!(kind_of(socket), Kind::Stuck)
            && socket.send_unacknowledged().0 == self.number.0
            && self.last == NO_MOMENT
    }

    /// Whether such bytes are waited for from the same moment on and as long as at the last look, and not too long yet.
    #[inline(always)]
    pub(crate) fn goes_on(&self, limits: &Limits, now: Instant) -> bool {
        let since = since_of(true, self.since, now);
        let end = end_of(limits.of_bytes(), since);
        since == self.since && end == self.end && !has_come(self.end, now)
    }

    /// What the guard sees of the socket at this moment.
    pub(crate) fn sight<G>(&self, limits: &Limits, socket: &Socket<'_, G>, now: Instant) -> Sight {
        let kind = kind_of(socket);
        let number = socket.send_unacknowledged();
        match kind {
            Kind::Free => Sight::none(),
            // apart, as most that wait are such
            Kind::Stuck => self.waits(limits, Kind::Stuck, number, now),
            _ => self.waits(limits, kind, number, now),
        }
    }
}
