// Made from crates/sock_tcp/src/own_window.rt by rust/translate: change it there.
//! Which window a socket tells: by the RFCs' rules none by a few bytes (RFC 9293, section 3.8.6.2.2).
//!
//! A SYN advertises the whole buffer, counted from its acknowledgement on, or without one from the peer's own SYN on.
//! So what advertises the first window after it, or what follows a FIN, is less by one where there is no scale.

use crate::proved::sock_tcp::control_block::ControlBlock;
use crate::proved::sock_tcp::rules::Rules;

impl<'a> ControlBlock<'a> {
    // The field that tells the free space.
    pub(crate) fn space_field(&self) -> u16 {
        (self.rx_buffer.window() >> self.remote_win_shift).min(65535) as u16
    }

    // What is left of the window that was told last.
    fn told_left(&self) -> usize {
        let window = self.receive_window();
        window.end.since(window.start)
    }

    // Whether half of the receive buffer, or a segment of the connection, lies behind its right edge.
    #[inline(never)]
    fn is_grown(&self) -> bool {
        let most = (self.rx_buffer.capacity() / 2).min(self.remote_mss);
        self.rx_buffer.window() - self.told_left() >= most
    }

    // The field that keeps the right edge.
    pub(crate) fn kept_field(&self) -> u16 {
        let unit = 1usize << self.remote_win_shift;
        let up = (self.told_left() + (unit - 1)) >> self.remote_win_shift;
        up.min(self.space_field() as usize) as u16
    }

    #[inline(never)]
    fn rfc_field(&self) -> u16 {
        if self.is_grown() { self.space_field() } else { self.kept_field() }
    }

    // The window field of every segment but a SYN.
    #[inline(always)]
    pub(crate) fn window_field(&self) -> u16 {
        match crate::kit::in_force(self.rules) {
            Rules::Smoltcp => self.space_field(),
            Rules::Rfc => self.rfc_field(),
        }
    }

    // Whether the right edge that is told may move on.
    #[inline(always)]
    pub(crate) fn may_grow(&self) -> bool {
        match crate::kit::in_force(self.rules) {
            Rules::Smoltcp => true,
            Rules::Rfc => self.is_grown(),
        }
    }
}
