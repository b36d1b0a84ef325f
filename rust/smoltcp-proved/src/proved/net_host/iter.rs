// Made from crates/net_host/src/iter.rt by rust/translate: change it there.
//! The sockets of a set, one after the other.

use crate::proved::net_host::filed::Filed;
use crate::proved::net_host::slot::{Slot, SocketHandle};
use crate::sockets::Socket;
use crate::sockets::sock_tcp::{Generator, TsvalSource};

/// The sockets of a set with their handles, in the order of handles.
pub struct Iter<'s, 'a, G = Generator> {
    pub(crate) slots: &'s [Slot<'a, G>],
    // the place that is looked at next
    pub(crate) index: usize,
}

impl<'s, 'a, G> Iterator for Iter<'s, 'a, G> {
    type Item = (SocketHandle, &'s Socket<'a, G>);

    fn next(&mut self) -> Option<(SocketHandle, &'s Socket<'a, G>)> {
        while let Some(slot) = self.slots.get(self.index) {
            let index = self.index;
            self.index += 1;
            if let Some(socket) = &slot.socket {
                let handle = SocketHandle { index, generation: slot.generation };
                return Some((handle, socket));
            }
        }
        None
    }
}

impl<'a, G: TsvalSource> Filed<Slot<'a, G>> {
    /// The sockets with their handles, in the order of handles. As smoltcp's.
    pub fn iter(&self) -> Iter<'_, 'a, G> {
        Iter { slots: &self.slots, index: 0 }
    }
}
