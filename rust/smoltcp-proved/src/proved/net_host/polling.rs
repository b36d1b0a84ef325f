// Made from crates/net_host/src/polling.rt by rust/translate: change it there.
//! When the first of the sockets wants to speak.

use crate::proved::net_host::looking::SOONEST;
use crate::proved::net_host::set::SocketSet;
use crate::proved::net_host::slot::Slot;
use crate::sockets::sock_tcp::TsvalSource;
use crate::sockets::time::Instant;
use crate::sockets::{Context, PollAt};

/// When the first of the sockets wants to speak.
pub(crate) fn earliest<C: Context, G: TsvalSource>(sockets: &SocketSet<'_, G>, cx: &C) -> PollAt {
    match by_bounds(sockets, cx) {
        Some(poll) => poll,
        None => walk_for_earliest(&sockets.slots, cx),
    }
}

// The least bound, where it is still to come: a socket asks for it, and none for an earlier moment. Else what a socket
// with the least bound asks for.
fn by_bounds<C: Context, G: TsvalSource>(sockets: &SocketSet<'_, G>, cx: &C) -> Option<PollAt> {
    let least = sockets.bounds.least();
    if least <= SOONEST || sockets.terms.mtu != cx.ip_mtu() {
        return None;
    }
    if cx.now().micros < least && least < i64::MAX - 1 {
        return Some(PollAt::Time(Instant { micros: least }));
    }
    let i = sockets.bounds.next(0, sockets.bounds.len(), least)?;
    at_bound(sockets, i, least, cx)
}

fn poll_there<C: Context, G: TsvalSource>(slots: &[Slot<'_, G>], i: usize, cx: &C) -> PollAt {
    slots[i].poll_at(cx)
}

// When the socket at the place with the least bound wants to be asked.
fn at_bound<C: Context, G: TsvalSource>(
    sockets: &SocketSet<'_, G>,
    i: usize,
    least: i64,
    cx: &C,
) -> Option<PollAt> {
    let poll = poll_there(&sockets.slots, i, cx);
    if is_at_most(poll, least) {
        return Some(poll);
    }
    None
}

fn is_at_most(poll: PollAt, least: i64) -> bool {
    match poll {
        PollAt::Now => false,
        PollAt::Time(at) => at.micros <= least,
        PollAt::Ingress => i64::MAX <= least,
    }
}

fn walk_for_earliest<C: Context, G: TsvalSource>(slots: &[Slot<'_, G>], cx: &C) -> PollAt {
    slots.iter().fold(PollAt::Ingress, |first: PollAt, slot: &Slot<'_, G>| earlier(first, slot.poll_at(cx)))
}

fn earlier(poll: PollAt, other: PollAt) -> PollAt {
    match (poll, other) {
        (PollAt::Now, _) | (_, PollAt::Now) => PollAt::Now,
        (PollAt::Ingress, _) => other,
        (_, PollAt::Ingress) => poll,
        (PollAt::Time(at), PollAt::Time(then)) => {
            PollAt::Time(if at.micros <= then.micros { at } else { then })
        }
    }
}
