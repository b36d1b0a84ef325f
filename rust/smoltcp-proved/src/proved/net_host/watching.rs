// Made from crates/net_host/src/watching.rt by rust/translate: change it there.
//! What a guard does: it looks at its socket, and says when the socket may speak.

use crate::proved::control_wire::TcpSeqNumber;
use crate::proved::net_base::time::{Duration, Instant};
use crate::proved::net_host::guard::{Guard, GuardSettings, Kind, PACE, Phase, TURNS};
use crate::proved::net_host::limits::Limits;
use crate::proved::net_host::sight::{Sight, kind_of};
use crate::sockets::PollAt;
use crate::sockets::sock_tcp::{Socket, State};

impl GuardSettings {
    /// The limits of a new interface: 30 seconds for a handshake, a minute for what is closing and for silence, two
    /// minutes for bytes of which none is acknowledged.
    pub fn new() -> GuardSettings {
        GuardSettings {
            handshake: Some(Duration { micros: 30_000_000 }),
            closing: Some(Duration { micros: 60_000_000 }),
            window: Some(Duration { micros: 120_000_000 }),
            timeout: Some(Duration { micros: 60_000_000 }),
        }
    }

    /// No limits. What is left is that a socket has at most `TURNS` dispatches at one moment, and its pace in
    /// FIN-WAIT-2.
    pub fn off() -> GuardSettings {
        GuardSettings { handshake: None, closing: None, window: None, timeout: None }
    }

    fn limit_of(&self, phase: Phase) -> Option<Duration> {
        match phase {
            Phase::Free => None,
            Phase::Handshake => lawful(self.handshake),
            Phase::Stuck(_) => lawful(self.window),
            _ => lawful(self.closing),
        }
    }
}

fn lawful(limit: Option<Duration>) -> Option<Duration> {
    match limit {
        None => None,
        Some(limit) => Some(Duration { micros: limit.micros.min(1 << 60) }),
    }
}

impl Guard {
    /// Looks at the socket at this moment. Sets the user timeout, and ends what has lasted longer than its limit,
    /// counted from the first look that saw it, whatever has come from the peer since: a handshake without an RST, the
    /// rest by an abort. Of bytes or a FIN that wait it is counted from the first look that saw SND.UNA where it is,
    /// whatever states came since. Where the time goes back, it is counted from the earlier moment.
    pub fn watch<G>(&mut self, settings: &GuardSettings, socket: &mut Socket<'_, G>, now: Instant) {
        let phase = phase_of(socket);
        let since = since_in(phase, self.phase(), self.since(), now);
        let end = end_of(settings.limit_of(phase), since);
        let over = has_ended(end, now);
        set_timeout(socket, lawful(settings.timeout));
        end_if(over, phase, socket);
        self.note(over, phase, since, end);
    }

    /// Whether `watch` changes nothing at this moment: nothing is waited for, or bytes are as when the guard looked
    /// last, and the socket has the user timeout that is set. Most sockets that are looked at are such, and are spared
    /// the rest. Where the answer is no, it says nothing.
    pub(crate) fn is_idle<G>(&self, limits: &Limits, socket: &Socket<'_, G>, now: Instant) -> bool {
        if self.still_waits(socket) {
            return self.goes_on(limits, now) && has_timeout(limits.timeout(), socket.timeout());
        }
        self.waits_for_nothing() && is_free(socket) && has_timeout(limits.timeout(), socket.timeout())
    }

    /// Does what `watch` does where the state seen of the socket at this time is not older than its limit.
    pub(crate) fn keep<G>(
        &mut self,
        limits: &Limits,
        socket: &mut Socket<'_, G>,
        now: Instant,
        sight: &Sight,
    ) {
        set_timeout(socket, lawful(limits.timeout()));
        self.remember(sight);
    }

    fn note(&mut self, over: bool, phase: Phase, since: Option<Instant>, end: Option<Instant>) {
        if over {
            self.wait(Phase::Free, None, None);
            self.set_last(None);
        } else {
            self.wait(phase, since, end);
            self.set_last(last_left(phase, self.last()));
        }
    }

    /// Whether `take_turn` would allow a dispatch at this moment.
    pub fn may_take_turn(&self, now: Instant) -> bool {
        self.taken_at(now) < TURNS && self.is_in_pace(now)
    }

    // In FIN-WAIT-2, whether the last dispatch was long enough ago.
    fn is_in_pace(&self, now: Instant) -> bool {
        match self.kind {
            Kind::FinWait2 => is_in_pace(self.last(), now),
            _ => true,
        }
    }

    /// Whether the socket may be dispatched at this moment: at most `TURNS` times, and in FIN-WAIT-2 not within `PACE`
    /// of the last dispatch that was allowed there. What is allowed is remembered, so that a loop which asks before
    /// each dispatch ends, however often it is begun at one moment.
    pub fn take_turn(&mut self, now: Instant) -> bool {
        let taken = self.taken_at(now);
        let may = taken < TURNS && self.is_in_pace(now);
        if may {
            self.count(now, taken + 1);
            self.set_last(last_after(self.phase(), self.last(), now));
        } else {
            self.count(now, taken);
        }
        may
    }

    /// When the host is to look at the socket next, whose own `poll_at` answered `asked`: in FIN-WAIT-2 not before
    /// `PACE` after the last dispatch, and at the latest when what the peer is waited for is to end.
    pub fn poll_at(&self, asked: PollAt) -> PollAt {
        let asked = self.paced(asked);
        match self.end() {
            None => asked,
            Some(end) => earlier(asked, end),
        }
    }

    // In FIN-WAIT-2 not before `PACE` after the last dispatch.
    fn paced(&self, asked: PollAt) -> PollAt {
        match self.kind {
            Kind::FinWait2 => behind(self.last(), asked),
            _ => asked,
        }
    }
}

// ---- what is waited for

fn phase_of<G>(socket: &Socket<'_, G>) -> Phase {
    let empty = socket.send_queue() == 0;
    phase_in(socket.state(), empty, socket.send_unacknowledged())
}

fn phase_in(state: State, empty: bool, una: TcpSeqNumber) -> Phase {
    match state {
        State::SynReceived => Phase::Handshake,
        State::FinWait2 => Phase::FinWait2,
        State::FinWait1 | State::Closing | State::LastAck => Phase::Closing(una),
        State::Established | State::CloseWait => stuck_by(empty, una),
        _ => Phase::Free,
    }
}

fn is_free<G>(socket: &Socket<'_, G>) -> bool {
    matches!(kind_of(socket), Kind::Free)
}

// Whether a socket has the user timeout that is set, if one is.
fn has_timeout(limit: Option<Duration>, timeout: Option<Duration>) -> bool {
    match (lawful(limit), timeout) {
        (None, _) => true,
        (Some(limit), Some(timeout)) => limit.micros == timeout.micros,
        (Some(_), None) => false,
    }
}

fn stuck_by(empty: bool, una: TcpSeqNumber) -> Phase {
    if empty { Phase::Free } else { Phase::Stuck(una) }
}

fn same_phase(phase: Phase, before: Phase) -> bool {
    match (phase, before) {
        (Phase::Handshake, Phase::Handshake) | (Phase::FinWait2, Phase::FinWait2) => true,
        (Phase::Stuck(a), Phase::Stuck(b))
        | (Phase::Stuck(a), Phase::Closing(b))
        | (Phase::Closing(a), Phase::Stuck(b))
        | (Phase::Closing(a), Phase::Closing(b)) => a.0 == b.0,
        _ => false,
    }
}

fn since_in(phase: Phase, before: Phase, since: Option<Instant>, now: Instant) -> Option<Instant> {
    match phase {
        Phase::Free => None,
        _ => since_by(same_phase(phase, before), since, now),
    }
}

fn since_by(same: bool, since: Option<Instant>, now: Instant) -> Option<Instant> {
    match (same, since) {
        (true, Some(since)) if since.micros <= now.micros => Some(since),
        _ => Some(now),
    }
}

fn end_of(limit: Option<Duration>, since: Option<Instant>) -> Option<Instant> {
    match (limit, since) {
        (Some(limit), Some(since)) => Some(after(since, limit)),
        _ => None,
    }
}

fn has_ended(end: Option<Instant>, now: Instant) -> bool {
    match end {
        None => false,
        Some(end) => end <= now,
    }
}

fn last_left(phase: Phase, last: Option<Instant>) -> Option<Instant> {
    match phase {
        Phase::FinWait2 => last,
        _ => None,
    }
}

// The last dispatch in FIN-WAIT-2 once one was allowed now.
fn last_after(phase: Phase, last: Option<Instant>, now: Instant) -> Option<Instant> {
    match phase {
        Phase::FinWait2 => Some(now),
        _ => last,
    }
}

// ---- what becomes of the socket

fn set_timeout<G>(socket: &mut Socket<'_, G>, timeout: Option<Duration>) {
    if timeout.is_some() {
        socket.set_timeout(timeout);
    }
}

fn end_if<G>(over: bool, phase: Phase, socket: &mut Socket<'_, G>) {
    match (over, phase) {
        (false, _) => {}
        (true, Phase::Handshake) => give_up(socket),
        (true, _) => socket.abort(),
    }
}

// No RST goes out where the socket listens again.
fn give_up<G>(socket: &mut Socket<'_, G>) {
    let endpoint = socket.listen_endpoint();
    socket.abort();
    if endpoint.port != 0 {
        let _ = socket.listen(endpoint);
    }
}

// ---- moments

fn is_in_pace(last: Option<Instant>, now: Instant) -> bool {
    match last {
        Some(last) => PACE.micros <= (now - last).micros,
        None => true,
    }
}

fn behind(last: Option<Instant>, asked: PollAt) -> PollAt {
    match last {
        Some(last) => not_before(after(last, PACE), asked),
        None => asked,
    }
}

fn after(moment: Instant, delay: Duration) -> Instant {
    moment + delay
}

/// What is asked for, but not before a moment.
pub(crate) fn not_before(moment: Instant, asked: PollAt) -> PollAt {
    match asked {
        PollAt::Now => PollAt::Time(moment),
        PollAt::Time(at) => PollAt::Time(if moment.micros <= at.micros { at } else { moment }),
        PollAt::Ingress => PollAt::Ingress,
    }
}

fn earlier(asked: PollAt, end: Instant) -> PollAt {
    match asked {
        PollAt::Now => PollAt::Now,
        PollAt::Time(at) => PollAt::Time(if at.micros <= end.micros { at } else { end }),
        PollAt::Ingress => PollAt::Time(end),
    }
}
