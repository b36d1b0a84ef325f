// Made from crates/net_host/src/lent_turns.rt by rust/translate: change it there.
//! A guard looks at its socket, and a socket has its turn, in a set with an index.

use crate::kit::Vec;
use crate::proved::net_host::environment::Environment;
use crate::proved::net_host::guard::GuardSettings;
use crate::proved::net_host::limits::Limits;
use crate::proved::net_host::set::SocketSet;
use crate::proved::net_host::sight::Sight;
use crate::proved::net_host::slot::Slot;
use crate::proved::net_host::wire::{Sent, TooShort};
use crate::sockets::Socket;
use crate::sockets::sock_tcp::TsvalSource;
use crate::sockets::tcp::State;
use crate::sockets::time::Instant;
use crate::sockets::wire::IpAddress;

// Whether there is no connection in this state.
fn is_over(state: State) -> bool {
    matches!(state, State::Closed | State::Listen)
}

impl<'a, G> Slot<'a, G> {
    // Whether there is a TCP socket with no connection here.
    fn is_over(&self) -> bool {
        match &self.socket {
            Some(Socket::Tcp(tcp)) => is_over(tcp.state()),
            _ => false,
        }
    }
}

fn is_over_at<G>(slots: &[Slot<'_, G>], i: usize) -> bool {
    match slots.get(i) {
        Some(slot) => slot.is_over(),
        None => false,
    }
}

/// The program is told where the TCP socket at this place has no connection after its turn.
#[inline(always)]
pub(crate) fn tell_if_over<G: TsvalSource>(sockets: &mut SocketSet<'_, G>, i: usize) {
    if is_over_at(&sockets.slots, i) {
        sockets.tell_end(i);
    }
}

fn sight_at<G: TsvalSource>(slots: &[Slot<'_, G>], i: usize, limits: &Limits, now: Instant) -> Sight {
    slots[i].sight(limits, now)
}

fn keep_there<G: TsvalSource>(
    slots: &mut Vec<Slot<'_, G>>,
    i: usize,
    limits: &Limits,
    now: Instant,
    sight: &Sight,
) {
    slots[i].keep(limits, now, sight);
}

fn watch_there<G: TsvalSource>(
    slots: &mut Vec<Slot<'_, G>>,
    i: usize,
    settings: &GuardSettings,
    now: Instant,
) {
    slots[i].watch(settings, now);
}

// The guard of the socket at this place ends its connection. Not inlined, as few looks come here.
#[inline(never)]
fn watch_lent<G: TsvalSource>(
    sockets: &mut SocketSet<'_, G>,
    i: usize,
    settings: &GuardSettings,
    now: Instant,
) {
    sockets.lend(i);
    watch_there(&mut sockets.slots, i, settings, now);
    sockets.tell_end(i);
}

// What is not ended keeps its keys.
fn watch_kept<G: TsvalSource>(sockets: &mut SocketSet<'_, G>, i: usize, now: Instant, sight: &Sight) {
    sockets.bounds.put_at_once(i);
    sockets.settled = false;
    keep_there(&mut sockets.slots, i, &sockets.terms.guards, now, sight);
}

/// The guard of the socket at this place looks at it.
pub(crate) fn watch_at<G: TsvalSource>(sockets: &mut SocketSet<'_, G>, i: usize, now: Instant) {
    let sight = sight_at(&sockets.slots, i, &sockets.terms.guards, now);
    if sight.is_over(now) {
        let guards = sockets.terms.guards.settings();
        watch_lent(sockets, i, &guards, now);
    } else {
        watch_kept(sockets, i, now, &sight);
    }
}

/// The socket at this place has its turn.
pub(crate) fn turn_there<G: TsvalSource>(
    slots: &mut Vec<Slot<'_, G>>,
    i: usize,
    environment: &Environment,
    out: &mut [u8],
) -> (Result<(), TooShort>, Sent) {
    slots[i].take_turn(environment, out)
}
