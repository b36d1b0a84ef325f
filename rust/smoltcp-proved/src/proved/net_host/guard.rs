// Made from crates/net_host/src/guard.rt by rust/translate: change it there.
//! Limits that a host sets its TCP connections, so that no peer keeps it busy for ever or keeps its sockets taken.

use crate::proved::control_wire::TcpSeqNumber;
use crate::proved::net_base::time::{Duration, Instant};
use crate::proved::net_host::sight::Sight;

/// How long after a dispatch in FIN-WAIT-2 there is none. Nothing but acknowledgements is left to send in this state,
/// and with a probe timer that is left over every dispatch emits one: so they are 50 in a second at most.
pub const PACE: Duration = Duration { micros: 20_000 };

/// How many dispatches a socket has at one moment at most: more than the 45 segments of full size that a queue of 65536
/// bytes holds, so that only what goes on without end is cut.
pub const TURNS: u8 = 64;

/// How long a peer may leave a connection of the host waiting; no limit where there is none. A limit of more than 2^60
/// microseconds counts as so many.
#[derive(Debug, Clone, Copy)]
pub struct GuardSettings {
    /// Of a handshake that a SYN began, until SYN-RECEIVED is left. It is given up without an RST, so that a client
    /// whose segments were lost tries again (RFC 6298, section 5.7): the socket listens again.
    pub handshake: Option<Duration>,
    /// Of FIN-WAIT-2, and of bytes or a FIN that wait in FIN-WAIT-1, CLOSING or LAST-ACK while nothing is newly
    /// acknowledged: a peer that takes bytes slowly is not cut off. The connection is aborted.
    pub closing: Option<Duration>,
    /// Of bytes that wait in ESTABLISHED or CLOSE-WAIT while nothing is newly acknowledged, whatever windows and other
    /// segments come meanwhile (RFC 6429; R2 of RFC 9293, section 3.8.3). The connection is aborted.
    pub window: Option<Duration>,
    /// The user timeout that each socket is given (RFC 9293, section 3.9.1); where there is none, each keeps its own.
    pub timeout: Option<Duration>,
}

/// What only the peer can end.
#[derive(Debug, Clone, Copy, PartialEq, Eq)]
pub enum Phase {
    /// Nothing.
    Free,
    /// SYN-RECEIVED.
    Handshake,
    FinWait2,
    /// FIN-WAIT-1, CLOSING or LAST-ACK: bytes or a FIN wait, of which the first has this number (SND.UNA).
    Closing(TcpSeqNumber),
    /// ESTABLISHED or CLOSE-WAIT while bytes wait, of which the first has this number.
    Stuck(TcpSeqNumber),
}

// A phase without its number.
#[derive(Debug, Clone, Copy, PartialEq, Eq)]
pub(crate) enum Kind {
    Free,
    Handshake,
    FinWait2,
    Closing,
    Stuck,
}

// What stands for no moment: no moment of a guard is the least.
pub(crate) const NO_MOMENT: i64 = i64::MIN;

/// What a host remembers beside a socket: what the peer is waited for and since when, counted from the first look that
/// saw it, and when that is to end; when the socket was last dispatched in FIN-WAIT-2; when it was last dispatched at
/// all, and how often at that moment.
///
/// It takes 40 bytes, as its moments are numbers: an `Option` of one takes sixteen bytes.
pub struct Guard {
    pub(crate) since: i64,
    pub(crate) end: i64,
    pub(crate) last: i64,
    moment: i64,
    // of the first byte that waits, in `Closing` and `Stuck`
    pub(crate) number: TcpSeqNumber,
    pub(crate) kind: Kind,
    taken: u8,
}

// The moment of so many microseconds, or none.
fn moment_from(micros: i64) -> Option<Instant> {
    if micros == NO_MOMENT {
        return None;
    }
    Some(Instant { micros })
}

// The number of the moment, or of none.
fn micros_of(moment: Option<Instant>) -> i64 {
    match moment {
        None => NO_MOMENT,
        Some(moment) => moment.micros,
    }
}

// How often a socket was dispatched at this moment: no lawful one is the number of none.
fn taken_at(moment: i64, taken: u8, now: Instant) -> u8 {
    if moment == now.micros { taken } else { 0 }
}

fn phase_from(kind: Kind, number: TcpSeqNumber) -> Phase {
    match kind {
        Kind::Free => Phase::Free,
        Kind::Handshake => Phase::Handshake,
        Kind::FinWait2 => Phase::FinWait2,
        Kind::Closing => Phase::Closing(number),
        Kind::Stuck => Phase::Stuck(number),
    }
}

// The phase without its number, and that number.
fn parts_of(phase: Phase) -> (Kind, TcpSeqNumber) {
    match phase {
        Phase::Free => (Kind::Free, TcpSeqNumber(0)),
        Phase::Handshake => (Kind::Handshake, TcpSeqNumber(0)),
        Phase::FinWait2 => (Kind::FinWait2, TcpSeqNumber(0)),
        Phase::Closing(number) => (Kind::Closing, number),
        Phase::Stuck(number) => (Kind::Stuck, number),
    }
}

impl Guard {
    /// Of a socket that nothing is remembered of.
    pub fn new() -> Guard {
        Guard {
            since: NO_MOMENT,
            end: NO_MOMENT,
            last: NO_MOMENT,
            moment: NO_MOMENT,
            number: TcpSeqNumber(0),
            kind: Kind::Free,
            taken: 0,
        }
    }

    /// What the peer is waited for.
    pub fn phase(&self) -> Phase {
        phase_from(self.kind, self.number)
    }

    /// Since when.
    pub fn since(&self) -> Option<Instant> {
        moment_from(self.since)
    }

    /// When that is to end.
    pub fn end(&self) -> Option<Instant> {
        moment_from(self.end)
    }

    /// When the socket was last dispatched in FIN-WAIT-2.
    pub fn last(&self) -> Option<Instant> {
        moment_from(self.last)
    }

    /// When it was last dispatched.
    pub fn moment(&self) -> Option<Instant> {
        moment_from(self.moment)
    }

    /// How often it was dispatched at that moment.
    pub fn taken(&self) -> u8 {
        self.taken
    }

    /// How often it was dispatched at this moment.
    pub(crate) fn taken_at(&self, now: Instant) -> u8 {
        taken_at(self.moment, self.taken, now)
    }

    // Whether nothing is waited for, and nothing is remembered but turns; where the answer is no, it says nothing.
    pub(crate) fn waits_for_nothing(&self) -> bool {
        matches!(self.kind, Kind::Free)
            && self.since == NO_MOMENT
            && self.end == NO_MOMENT
            && self.last == NO_MOMENT
    }

    // The peer is waited for.
    pub(crate) fn wait(&mut self, phase: Phase, since: Option<Instant>, end: Option<Instant>) {
        (self.kind, self.number) = parts_of(phase);
        self.since = micros_of(since);
        self.end = micros_of(end);
    }

    // What was seen is remembered, where it has not lasted too long.
    pub(crate) fn remember(&mut self, sight: &Sight) {
        self.kind = sight.kind;
        self.number = sight.number;
        self.since = sight.since;
        self.end = sight.end;
        if !matches!(sight.kind, Kind::FinWait2) {
            self.last = NO_MOMENT;
        }
    }

    // The last dispatch in FIN-WAIT-2.
    pub(crate) fn set_last(&mut self, last: Option<Instant>) {
        self.last = micros_of(last);
    }

    // So many dispatches at this moment.
    pub(crate) fn count(&mut self, now: Instant, taken: u8) {
        self.moment = micros_of(Some(now));
        self.taken = taken;
    }
}
