// Made from crates/net_host/src/touched.rt by rust/translate: change it there.
//! Which sockets of a set may have changed.

use crate::proved::host_bounds::Bounds;
use crate::proved::net_host::filed::{Filed, Keyed};

/// The place is to be asked at once where its socket took something.
pub(crate) fn touch_if(bounds: &mut Bounds, i: usize, took: bool) {
    if took {
        bounds.put_at_once(i);
    }
}

impl<T: Keyed> Filed<T> {
    /// The first place from one on whose socket took a segment, a datagram, a message or a packet's copy, was lent or
    /// put there since `emit` last asked it; none behind the last of them. So between `receive` and `emit` a program
    /// need not look at each of its sockets: a packet leaves each socket that is not touched as it was.
    pub fn touched(&self, from: usize) -> Option<usize> {
        self.bounds.next(from, self.bounds.len(), i64::MIN)
    }

    /// The first place from one on whose connection ended within `emit`, by a timer, its guard or an address that was
    /// lost, since it was lent last; none behind the last of them. So no program need look at each of its connections
    /// for those that ended: one that a packet ends is `touched`.
    pub fn ended(&self, from: usize) -> Option<usize> {
        let place = self.ended.next(from);
        if place < self.slots.len() { Some(place) } else { None }
    }
}
