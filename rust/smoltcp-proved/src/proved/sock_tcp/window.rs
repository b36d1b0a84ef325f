// Made from crates/sock_tcp/src/window.rt by rust/translate: change it there.
//! The receive window (RFC 9293, section 3.10.7.4; RFC 7323, section 2).

use crate::proved::control_wire::{TcpControl, TcpSeqNumber};
use crate::proved::sock_core::seq::{before, later, not_after};
use crate::proved::sock_tcp::control_block::ControlBlock;
use crate::proved::sock_tcp::rules::Rules;

/// The receive window: its left edge, and the number behind its last one.
#[derive(Clone, Copy)]
pub struct Window {
    /// The left edge, RCV.NXT.
    pub start: TcpSeqNumber,
    /// The number behind the window's last.
    pub end: TcpSeqNumber,
}

/// A part of a segment's payload.
#[derive(Clone, Copy)]
pub struct Cut {
    /// How many bytes stand before it.
    pub skip: usize,
    /// How many bytes it has, where the payload has so many.
    pub count: usize,
    /// How far its first byte lies past RCV.NXT.
    pub offset: usize,
}

impl Cut {
    // The part of a payload that the cut names.
    pub(crate) fn of(self, payload: &[u8]) -> &[u8] {
        let from = self.skip.min(payload.len());
        let count = self.count.min(payload.len() - from);
        &payload[from..from + count]
    }
}

impl Window {
    // The control bit that counts, of a segment of `length` bytes inside the window.
    pub(crate) fn counted_control(
        &self,
        control: TcpControl,
        number: TcpSeqNumber,
        length: usize,
    ) -> TcpControl {
        match control {
            TcpControl::Psh => TcpControl::None,
            TcpControl::Fin if before(self.start, number) || before(self.end, number.plus(length)) => {
                TcpControl::None
            }
            _ => control,
        }
    }

    // Whether a number lies from the left edge on, and before the right one.
    pub(crate) fn starts_inside(&self, number: TcpSeqNumber) -> bool {
        not_after(self.start, number) && before(number, self.end)
    }

    // Whether a segment of `length` bytes lies inside (RFC 9293, section 3.10.7.4).
    #[inline(always)]
    pub(crate) fn is_inside(&self, number: TcpSeqNumber, length: usize) -> bool {
        match (length, self.start == self.end) {
            (0, _) if number == self.start.minus(1) => false,
            (0, true) => number == self.start,
            (0, false) => self.starts_inside(number),
            (_, true) => false,
            (_, false) => {
                let end = number.plus(length);
                self.starts_inside(number) || before(self.start, end) && not_after(end, self.end)
            }
        }
    }

    // The part of such a segment that lies in the window.
    pub(crate) fn cut(&self, number: TcpSeqNumber, length: usize) -> Cut {
        let start = later(self.start, number);
        let end = number.plus(length);
        let end = if before(end, self.end) { end } else { self.end };
        Cut { skip: start.since(number), count: end.since(start), offset: start.since(self.start) }
    }
}

impl<'a> ControlBlock<'a> {
    // RCV.NXT.
    pub(crate) fn next_ack(&self) -> TcpSeqNumber {
        self.remote_seq_no.plus(self.rx_buffer.len())
    }

    // An edge, kept from `start` to `limit`.
    fn kept_between(start: TcpSeqNumber, limit: TcpSeqNumber, edge: TcpSeqNumber) -> TcpSeqNumber {
        if before(edge, start) {
            start
        } else if before(limit, edge) {
            limit
        } else {
            edge
        }
    }

    pub(crate) fn receive_window(&self) -> Window {
        let start = self.next_ack();
        start.in_range(); // for its contract
        let end = match self.remote_last_ack {
            None => start,
            Some(ack) => {
                let edge = ack.plus((self.remote_last_win as usize) << self.remote_win_shift);
                edge.in_range(); // for its contract
                Self::kept_between(start, start.plus(self.rx_buffer.window()), edge)
            }
        };
        Window { start, end }
    }

    // The window that honors whatever was told once (RFC 7323, section 2.4); RSTs and blocks of SACK are tested by
    // it too.
    pub(crate) fn honored_window(&self) -> Window {
        let start = self.next_ack();
        let end = match self.remote_last_ack {
            None => start,
            Some(_) => start.plus(self.rx_buffer.window()),
        };
        Window { start, end }
    }

    // The window in which a segment is taken, by the socket's rules.
    pub(crate) fn accepted_window(&self) -> Window {
        match crate::kit::in_force(self.rules) {
            Rules::Smoltcp => self.receive_window(),
            Rules::Rfc => self.honored_window(),
        }
    }
}
