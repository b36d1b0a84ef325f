// Made from crates/sock_tcp/src/idle.rt by rust/translate: change it there.
//! A restart of the congestion window after idle time, by the RFCs' rules (RFC 5681, section 4.1).

use crate::proved::net_base::time::Instant;
use crate::proved::sock_core::congestion::Controller;
use crate::proved::sock_tcp::control_block::ControlBlock;
use crate::proved::sock_tcp::timer::{after, is_over};

impl<'a> ControlBlock<'a> {
    // Nothing was sent for a retransmission timeout.
    fn was_idle(&self, now: Instant) -> bool {
        match self.idle_at() {
            None => false,
            Some(at) => is_over(at, now),
        }
    }

    // Something goes out that takes numbers.
    #[inline(never)]
    pub(crate) fn restart_if_idle(&mut self, now: Instant) {
        if self.was_idle(now) {
            self.congestion_controller.restart();
        }
        self.has_idle_at = true;
        self.idle_at = after(now, self.rtte.retransmission_timeout());
    }
}
