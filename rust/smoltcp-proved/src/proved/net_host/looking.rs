// Made from crates/net_host/src/looking.rt by rust/translate: change it there.
//! Guards look at sockets that may want to be asked by now, up to the first that is due.

use crate::proved::net_host::lent_turns::watch_at;
use crate::proved::net_host::limits::Limits;
use crate::proved::net_host::set::SocketSet;
use crate::proved::net_host::slot::Slot;
use crate::proved::net_host::turn::is_reached;
use crate::sockets::sock_tcp::TsvalSource;
use crate::sockets::time::Instant;
use crate::sockets::{Context, PollAt};

// The bound of a socket that asks for now: a mark is the least, and says that the socket may have changed.
pub(crate) const SOONEST: i64 = i64::MIN + 1;

/// A moment before which a socket need not be asked that asks for this one.
pub(crate) fn bound_of(poll: PollAt) -> i64 {
    match poll {
        PollAt::Now => SOONEST,
        PollAt::Time(at) => bound_by(at),
        PollAt::Ingress => i64::MAX,
    }
}

fn bound_by(at: Instant) -> i64 {
    if i64::MAX <= at.micros {
        return i64::MAX - 1;
    }
    if SOONEST < at.micros { at.micros } else { SOONEST }
}

impl<'a, G: TsvalSource> Slot<'a, G> {
    // When the socket wants to speak, and whether it may and wants to now.
    fn asks<C: Context>(&self, cx: &C) -> (PollAt, bool) {
        let now = cx.now();
        let asked = self.asked(cx);
        (asked, is_reached(asked, now) && self.guard.may_take_turn(now))
    }
}

fn asks_at<C: Context, G: TsvalSource>(slots: &[Slot<'_, G>], i: usize, cx: &C) -> (PollAt, bool) {
    slots[i].asks(cx)
}

// It need not be asked before the moment that it asks for.
fn put_off<G: TsvalSource>(sockets: &mut SocketSet<'_, G>, i: usize, asked: PollAt) {
    sockets.bounds.set(i, bound_of(asked));
}

// The guard at this place has looked: it need not be asked before the moment that its socket asks for, unless that is
// due, as it has its turn then. Whether it is.
#[inline(always)]
fn note_at<C: Context, G: TsvalSource>(sockets: &mut SocketSet<'_, G>, i: usize, cx: &C) -> bool {
    let (asked, due) = asks_at(&sockets.slots, i, cx);
    if due {
        return true;
    }
    put_off(sockets, i, asked);
    false
}

fn is_idle_at<G: TsvalSource>(slots: &[Slot<'_, G>], i: usize, limits: &Limits, now: Instant) -> bool {
    slots[i].is_idle(limits, now)
}

// The guard at this place looks, where that may change something.
fn watch_unless_idle<G: TsvalSource>(sockets: &mut SocketSet<'_, G>, i: usize, now: Instant) {
    if !is_idle_at(&sockets.slots, i, &sockets.terms.guards, now) {
        watch_at(sockets, i, now);
    }
}

// The guard at this place looks. Whether its socket is due then. Not inlined, so that a search that finds nobody saves
// few registers.
#[inline(never)]
fn look_at<C: Context, G: TsvalSource>(sockets: &mut SocketSet<'_, G>, i: usize, cx: &C) -> bool {
    watch_unless_idle(sockets, i, cx.now());
    note_at(sockets, i, cx)
}

// Guards look at the sockets that may want to be asked by now, from one place on and before another, up to the first
// that is due.
#[inline(always)]
fn due_between<C: Context, G: TsvalSource>(
    sockets: &mut SocketSet<'_, G>,
    cx: &C,
    start: usize,
    end: usize,
) -> Option<usize> {
    let now = cx.now().micros;
    let mut from = start;
    while let Some(i) = sockets.bounds.next(from, end, now) {
        if look_at(sockets, i, cx) {
            return Some(i);
        }
        from = i + 1;
    }
    None
}

/// The next slot that is due, in turn: from the slot whose turn it is on, and then before it.
pub(crate) fn next_due<C: Context, G: TsvalSource>(
    sockets: &mut SocketSet<'_, G>,
    cx: &C,
    turn: usize,
) -> Option<usize> {
    if sockets.bounds.are_after(cx.now().micros) {
        return None;
    }
    let count = sockets.slots.len();
    let start = turn.min(count);
    match due_between(sockets, cx, start, count) {
        Some(i) => Some(i),
        None => due_between(sockets, cx, 0, start),
    }
}
