// Made from crates/sock_tcp/src/advance.rt by rust/translate: change it there.
//! The state table of `process` (RFC 9293, section 3.10.7).

use crate::proved::control_wire::{TcpControl, TcpRepr, TcpSeqNumber};
use crate::proved::ip_wire::IpRepr;
use crate::proved::net_base::time::Instant;
use crate::proved::sock_core::Context;
use crate::proved::sock_core::congestion::Controller;
use crate::proved::sock_core::seq::before;
use crate::proved::sock_tcp::acked::Acked;
use crate::proved::sock_tcp::control_block::ControlBlock;
use crate::proved::sock_tcp::rules::Rules;
use crate::proved::sock_tcp::state::State;
use crate::proved::sock_tcp::timer::Timer;
use crate::proved::sock_tcp::tuple::Tuple;

// The smallest MSS that a peer is taken to have.
const MIN_MSS: usize = 48;

// The largest shift of a window (RFC 7323, section 2.3).
const MAX_SCALE: u8 = 14;

/// What comes after the state table, or after the checks before it.
#[derive(Clone, Copy)]
pub enum Next {
    /// The other steps.
    Continue,
    /// Nothing.
    Stop,
    /// A challenge ACK, and nothing else.
    Challenge,
}

// In LAST-ACK, with an acknowledgement of nothing new: by smoltcp's rules it is challenged.
fn nothing_new(rules: Rules) -> Next {
    match rules {
        Rules::Smoltcp => Next::Challenge,
        Rules::Rfc => Next::Continue,
    }
}

impl<'a> ControlBlock<'a> {
    // The options of a SYN (RFC 9293, section 3.2; RFC 7323, sections 2.2 and 3.2; RFC 2018, section 2).
    fn take_options(&mut self, repr: &TcpRepr<'_>) {
        self.remote_seq_no = repr.seq_number.plus(1);
        match repr.max_seg_size {
            Some(size) if size != 0 => {
                self.remote_mss = (size as usize).max(MIN_MSS);
                self.congestion_controller.set_mss(self.remote_mss);
            }
            _ => {}
        }
        self.remote_has_sack = repr.sack_permitted;
        match repr.window_scale {
            Some(scale) => self.remote_win_scale = Some(scale.min(MAX_SCALE)),
            None => {
                self.remote_win_scale = None;
                self.remote_win_shift = 0;
            }
        }
        self.stamps = self.stamps && repr.timestamp.is_some();
    }

    // An RST in SYN-RECEIVED: a listener listens again.
    fn fall_back(&mut self) -> Next {
        self.state = match self.listen_endpoint.port {
            0 => State::Closed,
            _ => State::Listen,
        };
        self.tuple = None;
        Next::Stop
    }

    // CLOSED, and what was received can be read.
    pub(crate) fn drop_connection(&mut self) {
        self.state = State::Closed;
        self.tuple = None;
    }

    fn end(&mut self, next: Next) -> Next {
        self.drop_connection();
        next
    }

    fn receive_syn(&mut self, now: Instant, tuple: Tuple, word: u32, repr: &TcpRepr<'_>) -> Next {
        self.take_options(repr);
        self.state = State::SynReceived;
        self.tuple = Some(tuple);
        self.local_seq_no = TcpSeqNumber(word);
        self.remote_last_seq = TcpSeqNumber(word);
        self.timer = Timer::idle(now, self.keep_alive());
        Next::Continue
    }

    fn take_syn_answer(&mut self, repr: &TcpRepr<'_>) -> Next {
        self.take_options(repr);
        self.state = match repr.ack_number {
            None => State::SynReceived,
            Some(_) => State::Established,
        };
        self.remote_last_seq = self.local_seq_no.plus(1);
        self.remote_last_ack = Some(repr.seq_number);
        Next::Continue
    }

    fn move_to(&mut self, state: State) -> Next {
        self.state = state;
        Next::Continue
    }

    // The FIN of the peer takes a number.
    fn count_fin(&mut self, state: State) -> Next {
        self.state = state;
        self.remote_seq_no = self.remote_seq_no.plus(1);
        self.rx_fin_received = true;
        Next::Continue
    }

    // TIME-WAIT lasts from now on.
    fn wait(&mut self, now: Instant) -> Next {
        self.state = State::TimeWait;
        self.timer = Timer::close(now);
        Next::Continue
    }

    // The FIN of the peer comes when ours is acknowledged.
    fn count_last_fin(&mut self, now: Instant) -> Next {
        self.count_fin(State::TimeWait);
        self.wait(now)
    }

    // The state table: by state, by the control bit that counts, and by whether our own FIN is acknowledged.
    pub(crate) fn advance<C: Context>(
        &mut self,
        cx: &mut C,
        now: Instant,
        control: TcpControl,
        acked: Acked,
        ip_repr: &IpRepr,
        repr: &TcpRepr<'_>,
    ) -> Next {
        match (self.state, control, acked.fin) {
            (State::SynReceived, TcpControl::Rst, _) => self.fall_back(),
            (_, TcpControl::Rst, _) => self.end(Next::Stop),
            (State::Listen, TcpControl::Syn, _) => {
                let word = cx.rand_u32();
                self.receive_syn(now, Tuple::of_segment(ip_repr, repr), word, repr)
            }
            (State::SynSent, TcpControl::Syn, _) => self.take_syn_answer(repr),
            (State::SynReceived, TcpControl::None, _) => self.move_to(State::Established),
            (State::SynReceived, TcpControl::Fin, _) => self.count_fin(State::CloseWait),
            (State::Established, TcpControl::None, _) => Next::Continue,
            (State::Established, TcpControl::Fin, _) => self.count_fin(State::CloseWait),
            (State::FinWait1, TcpControl::None, true) => self.move_to(State::FinWait2),
            (State::FinWait1, TcpControl::None, false) => Next::Continue,
            (State::FinWait1, TcpControl::Fin, true) => self.count_last_fin(now),
            (State::FinWait1, TcpControl::Fin, false) => self.count_fin(State::Closing),
            (State::FinWait2, TcpControl::None, _) => Next::Continue,
            (State::FinWait2, TcpControl::Fin, _) => self.count_last_fin(now),
            (State::CloseWait, TcpControl::None, _) => Next::Continue,
            (State::Closing, TcpControl::None, true) => self.wait(now),
            (State::Closing, TcpControl::None, false) => Next::Continue,
            (State::LastAck, TcpControl::None, true) => self.end(Next::Continue),
            (State::LastAck, TcpControl::None, false) if acked.len == 0 => {
                nothing_new(crate::kit::in_force(self.rules))
            }
            (State::LastAck, TcpControl::None, false) => Next::Continue,
            _ => Next::Stop,
        }
    }
}
