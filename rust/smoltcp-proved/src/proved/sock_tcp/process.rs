// Made from crates/sock_tcp/src/process.rt by rust/translate: change it there.
//! `accepts` and `process` (RFC 9293, section 3.10.7).

use crate::proved::control_wire::{TcpControl, TcpRepr};
use crate::proved::ip_wire::{IpListenEndpoint, IpRepr};
use crate::proved::net_base::time::Instant;
use crate::proved::sock_core::Context;
use crate::proved::sock_tcp::advance::Next;
use crate::proved::sock_tcp::control_block::ControlBlock;
use crate::proved::sock_tcp::duplicates::Response;
use crate::proved::sock_tcp::rules::Rules;
use crate::proved::sock_tcp::state::State;
use crate::proved::sock_tcp::timer::{CHALLENGE_INTERVAL, Timer, after};
use crate::proved::sock_tcp::tuple::Tuple;
use crate::proved::sock_tcp::verdict::Verdict;
use crate::proved::sock_tcp::window::Window;

// How a segment is answered.
#[derive(Clone, Copy)]
pub enum Answer {
    // Not at all.
    Nothing,
    // By an acknowledgement.
    Ack,
    // By an RST.
    Rst,
}

// What the receive window takes of a segment: the control bit that counts, and the bytes, the first of which stands so
// far past RCV.NXT.
#[derive(Clone, Copy)]
pub(crate) struct Taken<'b> {
    pub(crate) control: TcpControl,
    pub(crate) offset: usize,
    pub(crate) bytes: &'b [u8],
}

// Whether a segment goes to a listener on this endpoint.
fn is_to_listener(endpoint: &IpListenEndpoint, ip_repr: &IpRepr, repr: &TcpRepr<'_>) -> bool {
    let addressed = match endpoint.addr {
        None => true,
        Some(addr) => ip_repr.dst_addr() == addr,
    };
    addressed && repr.dst_port == endpoint.port && repr.dst_port != 0
}

// Whether a segment can open a connection.
fn opens(repr: &TcpRepr<'_>) -> bool {
    repr.ack_number.is_none() && !matches!(repr.control, TcpControl::Rst)
}

impl<'a> ControlBlock<'a> {
    fn is_addressed(&self, ip_repr: &IpRepr, repr: &TcpRepr<'_>) -> bool {
        match &self.tuple {
            Some(tuple) => tuple.is_of_segment(ip_repr, repr),
            None => is_to_listener(&self.listen_endpoint, ip_repr, repr),
        }
    }

    pub(crate) fn accepts(&self, ip_repr: &IpRepr, repr: &TcpRepr<'_>) -> bool {
        match self.state {
            State::Closed => false,
            State::Listen => opens(repr) && self.is_addressed(ip_repr, repr),
            _ => self.is_addressed(ip_repr, repr),
        }
    }

    fn has_window(&self) -> bool {
        !matches!(self.state, State::Listen | State::SynSent)
    }

    // An ACK, at most one a second.
    fn challenge(&mut self, now: Instant) -> Answer {
        if now.micros < self.challenge_ack_timer.micros {
            return Answer::Nothing;
        }
        self.challenge_ack_timer = after(now, CHALLENGE_INTERVAL);
        Answer::Ack
    }

    // In TIME-WAIT its time begins anew.
    fn restart_close(&mut self, now: Instant) {
        if let State::TimeWait = self.state {
            self.timer = Timer::close(now);
        }
    }

    // The answer to a segment outside of the window. One with bytes is answered each time, whatever the limit on
    // challenge ACKs (RFC 5961, section 7) says: its sender has not heard that they came, and sends them until it does.
    // One without is what two sides could answer each other with for ever.
    pub(crate) fn answer_outside(&mut self, now: Instant, repr: &TcpRepr<'_>) -> Answer {
        match (repr.control, repr.payload.len()) {
            (TcpControl::Rst, _) => Answer::Nothing,
            (TcpControl::Syn, _) | (_, 0) => {
                self.restart_close(now);
                self.challenge(now)
            }
            _ => {
                self.restart_close(now);
                Answer::Ack
            }
        }
    }

    // The answer to bytes for which there is no place.
    fn answer_without_place(&self) -> Answer {
        match crate::kit::in_force(self.rules) {
            Rules::Smoltcp => Answer::Nothing,
            Rules::Rfc => Answer::Ack,
        }
    }

    // The bytes that the window takes, the first of them so far past RCV.NXT; an ACK tells of a gap.
    #[inline(always)]
    fn take_bytes(&mut self, now: Instant, offset: usize, bytes: &[u8]) -> Answer {
        if bytes.is_empty() {
            return Answer::Nothing;
        }
        let had_no_gap = self.rx_buffer.holds_nothing();
        if !self.join(offset, bytes) {
            return self.answer_without_place();
        }
        self.delay_ack(now);
        if had_no_gap && self.rx_buffer.holds_nothing() {
            return Answer::Nothing;
        }
        Answer::Ack
    }

    // The state table, and the steps behind it.
    pub(crate) fn process_inside<C: Context>(
        &mut self,
        cx: &mut C,
        now: Instant,
        taken: Taken<'_>,
        ip_repr: &IpRepr,
        repr: &TcpRepr<'_>,
    ) -> Answer {
        let acked = self.acked_by_passing(repr.control, repr.ack_number);
        match self.advance(cx, now, taken.control, acked, ip_repr, repr) {
            Next::Stop => Answer::Nothing,
            Next::Challenge => self.challenge(now),
            Next::Continue => {
                self.hear(now, acked, repr);
                self.take_bytes(now, taken.offset, taken.bytes)
            }
        }
    }

    // The window test, and the cut.
    #[inline(always)]
    fn process_passed<C: Context>(
        &mut self,
        cx: &mut C,
        now: Instant,
        window: Window,
        ip_repr: &IpRepr,
        repr: &TcpRepr<'_>,
    ) -> Answer {
        if !self.has_window() {
            let taken = Taken { control: repr.control, offset: 0, bytes: &[] };
            return self.process_inside(cx, now, taken, ip_repr, repr);
        }
        let (number, length) = (repr.seq_number, repr.payload.len());
        number.in_range(); // for its contract
        if !window.is_inside(number, length) {
            return self.refuse(cx, now, &window, ip_repr, repr);
        }
        let cut = window.cut(number, length);
        let bytes = cut.of(repr.payload);
        let taken = Taken {
            control: window.counted_control(repr.control, number, length),
            offset: cut.offset,
            bytes,
        };
        self.has_local_rx_last_seq = true;
        self.local_rx_last_seq = number;
        self.process_inside(cx, now, taken, ip_repr, repr)
    }

    // By the RFCs' rules: what is done of loss comes behind.
    #[inline(never)]
    fn process_and_recover<C: Context>(
        &mut self,
        cx: &mut C,
        now: Instant,
        ip_repr: &IpRepr,
        repr: &TcpRepr<'_>,
    ) -> Answer {
        let before = self.before(repr);
        let window = self.accepted_window();
        let answer = self.process_passed(cx, now, window, ip_repr, repr);
        self.recover(&before, now);
        answer
    }

    // By the RFCs' rules: an older segment counts as telling the window that is known.
    #[inline(never)]
    fn process_by_rfc<C: Context>(
        &mut self,
        cx: &mut C,
        now: Instant,
        ip_repr: &IpRepr,
        repr: &TcpRepr<'_>,
    ) -> Answer {
        let windowed = self.windowed(repr);
        self.process_and_recover(cx, now, ip_repr, &windowed)
    }

    // And a close that waited is done then.
    #[inline(always)]
    fn process_and_close<C: Context>(
        &mut self,
        cx: &mut C,
        now: Instant,
        ip_repr: &IpRepr,
        repr: &TcpRepr<'_>,
    ) -> Answer {
        let answer = self.process_by_rfc(cx, now, ip_repr, repr);
        self.close_late();
        answer
    }

    // And the answer tells what came twice.
    #[inline(always)]
    fn process_and_tell<C: Context>(
        &mut self,
        cx: &mut C,
        now: Instant,
        ip_repr: &IpRepr,
        repr: &TcpRepr<'_>,
    ) -> Response {
        let count = self.came_before(repr);
        let answer = self.process_and_close(cx, now, ip_repr, repr);
        answer.telling(count)
    }

    // By the socket's rules.
    #[inline(always)]
    fn process_by_rules<C: Context>(
        &mut self,
        cx: &mut C,
        now: Instant,
        ip_repr: &IpRepr,
        repr: &TcpRepr<'_>,
    ) -> Response {
        match crate::kit::in_force(self.rules) {
            Rules::Smoltcp => {
                let window = self.receive_window();
                self.process_passed(cx, now, window, ip_repr, repr).plain()
            }
            Rules::Rfc => self.process_and_tell(cx, now, ip_repr, repr),
        }
    }

    #[inline(always)]
    pub(crate) fn process<C: Context>(
        &mut self,
        cx: &mut C,
        ip_repr: &IpRepr,
        repr: &TcpRepr<'_>,
    ) -> Response {
        let now = cx.now();
        match self.verdict_by_rules(now, repr) {
            Verdict::Drop => Response::Nothing,
            Verdict::Reset => Response::Rst,
            Verdict::Challenge => self.challenge(now).plain(),
            Verdict::Pass => self.process_by_rules(cx, now, ip_repr, repr),
        }
    }
}
