// Made from crates/sock_tcp/src/refused.rt by rust/translate: change it there.
//! What a segment outside of the receive window does, by the rules of the socket (RFC 9293, section 3.10.7.4).

use crate::proved::control_wire::{TcpControl, TcpRepr};
use crate::proved::ip_wire::IpRepr;
use crate::proved::net_base::time::Instant;
use crate::proved::sock_core::Context;
use crate::proved::sock_core::seq::not_after;
use crate::proved::sock_tcp::acked::Acked;
use crate::proved::sock_tcp::control_block::ControlBlock;
use crate::proved::sock_tcp::explain::{Row, answered_row, fin_row, place_row};
use crate::proved::sock_tcp::process::{Answer, Taken};
use crate::proved::sock_tcp::rules::Rules;
use crate::proved::sock_tcp::state::State;
use crate::proved::sock_tcp::window::Window;

// Whether the number of its FIN is the window's left edge.
fn is_next_fin(window: &Window, repr: &TcpRepr<'_>) -> bool {
    match repr.control {
        TcpControl::Fin => repr.seq_number.plus(repr.payload.len()) == window.start,
        _ => false,
    }
}

pub(crate) fn is_plain(control: TcpControl) -> bool {
    !matches!(control, TcpControl::Rst | TcpControl::Syn)
}

impl<'a> ControlBlock<'a> {
    // Whether its acknowledgement and its window are heard.
    fn is_heard_outside(&self, window: &Window, acked: Acked, repr: &TcpRepr<'_>) -> bool {
        let room = self.rx_buffer.capacity();
        let number = repr.seq_number;
        let news = acked.len != 0 || acked.fin;
        is_plain(repr.control)
            && not_after(window.start.minus(room), number)
            && not_after(number, window.end.plus(1))
            && (news || not_after(window.start, number))
    }

    // A segment that was heard is answered, unless the connection has ended by it.
    fn answer_unless_ended(&mut self, now: Instant, repr: &TcpRepr<'_>) -> Answer {
        match self.state {
            State::Closed => Answer::Nothing,
            _ => self.answer_outside(now, repr),
        }
    }

    // Its acknowledgement and its window are heard, and then it is answered.
    fn hear_outside<C: Context>(
        &mut self,
        cx: &mut C,
        now: Instant,
        ip_repr: &IpRepr,
        repr: &TcpRepr<'_>,
    ) -> Answer {
        let taken = Taken { control: TcpControl::None, offset: 0, bytes: &[] };
        match self.process_inside(cx, now, taken, ip_repr, repr) {
            Answer::Nothing => self.answer_unless_ended(now, repr),
            answer => answer,
        }
    }

    // By RFC 9293.
    fn refuse_by_rfc<C: Context>(
        &mut self,
        cx: &mut C,
        now: Instant,
        window: &Window,
        ip_repr: &IpRepr,
        repr: &TcpRepr<'_>,
    ) -> Answer {
        if is_next_fin(window, repr) {
            let taken = Taken { control: TcpControl::Fin, offset: 0, bytes: &[] };
            return self.process_inside(cx, now, taken, ip_repr, repr);
        }
        let acked = self.acked_by_passing(repr.control, repr.ack_number);
        if self.is_heard_outside(window, acked, repr) {
            self.hear_outside(cx, now, ip_repr, repr)
        } else {
            self.answer_outside(now, repr)
        }
    }

    // Not inlined: few segments lie outside.
    #[inline(never)]
    pub(crate) fn refuse<C: Context>(
        &mut self,
        cx: &mut C,
        now: Instant,
        window: &Window,
        ip_repr: &IpRepr,
        repr: &TcpRepr<'_>,
    ) -> Answer {
        match crate::kit::in_force(self.rules) {
            Rules::Smoltcp => self.answer_outside(now, repr),
            Rules::Rfc => self.refuse_by_rfc(cx, now, window, ip_repr, repr),
        }
    }

    // The row of a segment outside, by RFC 9293.
    fn rfc_refused_row(&self, window: &Window, repr: &TcpRepr<'_>) -> Row {
        if is_next_fin(window, repr) {
            return fin_row(self.state);
        }
        let acked = self.acked(repr.control, repr.ack_number);
        if self.is_heard_outside(window, acked, repr) {
            Row::HeardOutside
        } else {
            place_row(window, repr.seq_number)
        }
    }

    pub(crate) fn refused_row(&self, window: &Window, repr: &TcpRepr<'_>) -> Row {
        match crate::kit::in_force(self.rules) {
            Rules::Smoltcp => answered_row(repr.control, window, repr.seq_number),
            Rules::Rfc => self.rfc_refused_row(window, repr),
        }
    }
}
