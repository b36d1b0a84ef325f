// Made from crates/net_host/src/asked.rt by rust/translate: change it there.
//! How many places are asked for a segment.

use crate::proved::net_host::find::Sought;
use crate::proved::net_host::slot::Slot;
use crate::sockets::Context;
use crate::sockets::sock_tcp::TsvalSource;
use crate::sockets::time::Instant;
use crate::sockets::wire::{IpRepr, TcpRepr};

/// How many places were asked whether a segment is for their socket: a walk asks by way of this count alone.
#[derive(Debug, Clone, Copy, PartialEq, Eq)]
pub struct Asked {
    pub count: u64,
}

impl Asked {
    /// None was.
    pub(crate) fn none() -> Asked {
        Asked { count: 0 }
    }

    #[inline(always)]
    fn add(&mut self) {
        self.count = self.count.saturating_add(1);
    }

    /// Whether the socket at this place is what is sought.
    #[inline(always)]
    pub(crate) fn fits_at<C: Context, G: TsvalSource>(
        &mut self,
        slots: &[Slot<'_, G>],
        place: usize,
        cx: &C,
        sought: Sought,
        ip: &IpRepr,
        repr: &TcpRepr<'_>,
    ) -> bool {
        self.add();
        match slots.get(place) {
            Some(slot) => slot.fits(cx, sought, ip, repr),
            None => false,
        }
    }

    /// Until when the socket of this slot rests that may listen again for the segment.
    #[inline(always)]
    pub(crate) fn rests_until<G: TsvalSource>(
        &mut self,
        slot: &Slot<'_, G>,
        ip: &IpRepr,
        repr: &TcpRepr<'_>,
    ) -> Option<Instant> {
        self.add();
        slot.rests_until(ip, repr)
    }
}
