// Made from crates/net_host/src/turn.rt by rust/translate: change it there.
//! What a host does with one socket and its guard: looks at it, asks when it wants to speak, and lets it speak.

use crate::proved::net_host::emission::{emit_icmp, emit_raw, emit_tcp, emit_udp};
use crate::proved::net_host::environment::Environment;
use crate::proved::net_host::guard::GuardSettings;
use crate::proved::net_host::limits::Limits;
use crate::proved::net_host::sight::Sight;
use crate::proved::net_host::slot::Slot;
use crate::proved::net_host::watching::not_before;
use crate::proved::net_host::wire::{Sent, TooShort};
use crate::sockets::sock_tcp::TsvalSource;
use crate::sockets::time::{Duration, Instant};
use crate::sockets::wire::IpAddress;
use crate::sockets::{Context, PollAt, Socket};

// The least time: a socket that may not speak at a moment waits so long.
const NEXT: Duration = Duration { micros: 1 };

const NOTHING_SENT: Sent = Sent { len: 0, lost: false };

impl<'a, G: TsvalSource> Slot<'a, G> {
    /// The guard of a TCP socket looks at it, as `Guard::watch`.
    pub(crate) fn watch(&mut self, settings: &GuardSettings, now: Instant) {
        match &mut self.socket {
            Some(Socket::Tcp(tcp)) => self.guard.watch(settings, tcp, now),
            _ => {}
        }
    }

    /// What the guard of a TCP socket sees of it.
    pub(crate) fn sight(&self, limits: &Limits, now: Instant) -> Sight {
        match &self.socket {
            Some(Socket::Tcp(tcp)) => self.guard.sight(limits, tcp, now),
            _ => Sight::none(),
        }
    }

    /// Does what `watch` does where the state seen at this time is not older than its limit.
    pub(crate) fn keep(&mut self, limits: &Limits, now: Instant, sight: &Sight) {
        match &mut self.socket {
            Some(Socket::Tcp(tcp)) => self.guard.keep(limits, tcp, now, sight),
            _ => {}
        }
    }

    /// Whether that changes nothing; where the answer is no, it says nothing.
    pub(crate) fn is_idle(&self, limits: &Limits, now: Instant) -> bool {
        match &self.socket {
            Some(Socket::Tcp(tcp)) => self.guard.is_idle(limits, tcp, now),
            _ => true,
        }
    }

    /// When the socket wants to speak, as its guard allows.
    pub(crate) fn poll_at<C: Context>(&self, cx: &C) -> PollAt {
        let now = cx.now();
        let asked = self.asked(cx);
        delayed(self.guard.may_take_turn(now), now, asked)
    }

    /// When it wants to speak at the earliest.
    pub(crate) fn asked<C: Context>(&self, cx: &C) -> PollAt {
        match &self.socket {
            Some(Socket::Tcp(tcp)) => self.guard.poll_at(tcp.poll_at(cx)),
            _ => self.asked_beside_tcp(cx),
        }
    }

    // When a UDP, ICMP or raw socket wants to send. Not inlined, so that a TCP socket is asked after two tests.
    #[inline(never)]
    fn asked_beside_tcp<C: Context>(&self, cx: &C) -> PollAt {
        match &self.socket {
            Some(Socket::Udp(udp)) => self.guard.poll_at(udp.poll_at(cx)),
            Some(Socket::Icmp(icmp)) => self.guard.poll_at(icmp.poll_at(cx)),
            Some(Socket::Raw(raw)) => self.guard.poll_at(raw.poll_at(cx)),
            _ => PollAt::Ingress,
        }
    }

    /// Lets it speak, where its guard allows it.
    pub(crate) fn take_turn(
        &mut self,
        environment: &Environment,
        out: &mut [u8],
    ) -> (Result<(), TooShort>, Sent) {
        if !self.guard.take_turn(environment.moment()) {
            return (Ok(()), NOTHING_SENT);
        }
        self.dispatch(environment, out)
    }

    fn dispatch(&mut self, environment: &Environment, out: &mut [u8]) -> (Result<(), TooShort>, Sent) {
        match &mut self.socket {
            Some(Socket::Tcp(tcp)) => emit_tcp(tcp, environment, out),
            Some(Socket::Udp(udp)) => emit_udp(udp, environment, out),
            Some(Socket::Icmp(icmp)) => emit_icmp(icmp, environment, out),
            Some(Socket::Raw(raw)) => emit_raw(raw, environment, out),
            None => (Ok(()), NOTHING_SENT),
        }
    }
}

/// Not before the next moment, where the socket may not speak at this one.
pub(crate) fn delayed(may: bool, now: Instant, asked: PollAt) -> PollAt {
    if may {
        return asked;
    }
    not_before(now + NEXT, asked)
}

/// Whether the moment is now or was before.
pub(crate) fn is_reached(poll: PollAt, now: Instant) -> bool {
    match poll {
        PollAt::Now => true,
        PollAt::Time(at) => at <= now,
        PollAt::Ingress => false,
    }
}
