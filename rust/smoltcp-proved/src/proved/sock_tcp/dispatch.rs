// Made from crates/sock_tcp/src/dispatch.rt by rust/translate: change it there.
//! `dispatch` (RFC 9293, section 3.8).

use crate::proved::control_wire::TcpRepr;
use crate::proved::ip_wire::IpRepr;
use crate::proved::net_base::time::Instant;
use crate::proved::sock_core::Context;
use crate::proved::sock_core::congestion::Controller;
use crate::proved::sock_core::seq::later;
use crate::proved::sock_tcp::content::NO_HEADER;
use crate::proved::sock_tcp::control_block::ControlBlock;
use crate::proved::sock_tcp::emission::{Emitted, Kind};
use crate::proved::sock_tcp::ended::by_dispatch;
use crate::proved::sock_tcp::generator::TsvalSource;
use crate::proved::sock_tcp::kept::DelayKind;
use crate::proved::sock_tcp::recovery::Recovery;
use crate::proved::sock_tcp::socket::Socket;
use crate::proved::sock_tcp::state::State;

impl<'a> ControlBlock<'a> {
    // What any segment changes.
    fn after_any(&mut self, now: Instant) {
        self.timer = self.timer.keep_alive_renewed(now, self.keep_alive());
        self.ack_delay_kind = DelayKind::Idle;
        self.pending_fast_retransmit = self.pending_fast_retransmit && !self.state.carries_data();
    }

    fn after_probe(&mut self, now: Instant) {
        self.timer = self.timer.probe_doubled(now);
    }

    fn move_snd_nxt(&mut self, emitted: &Emitted) {
        if let Recovery::Fast { .. } | Recovery::Timeout { .. } = self.recovery.get() {
            self.undo.set(self.undo.get().sent(self.recovery.get(), self.remote_last_seq, emitted));
            self.recovery.set(self.recovery.get().resent(self.remote_last_seq, emitted));
        }
        self.remote_last_seq = later(self.remote_last_seq, emitted.end);
        self.remote_last_ack = emitted.ack_number;
        self.remote_last_win = emitted.window_len;
        if self.state.is_closed() {
            self.tuple = None;
        }
    }

    // What takes sequence numbers is timed, and waited for.
    fn time_sending(&mut self, now: Instant, emitted: &Emitted) {
        if emitted.len == 0 {
            return;
        }
        if let Recovery::Fast { .. } = self.recovery.get() {
            self.pending_fast_retransmit = self.pending_fast_retransmit || self.goes_on();
        }
        self.timer = self.timer.retransmit_unless_set(now, &self.rtte);
        self.measure_sending(now, emitted);
        self.congestion_controller.post_transmit(now, emitted.len);
    }

    fn after_sending(&mut self, now: Instant, emitted: &Emitted) {
        self.after_any(now);
        match emitted.kind {
            Kind::Plain => {
                self.move_snd_nxt(emitted);
                self.time_sending(now, emitted);
                self.arm_tail(now, emitted.len);
            }
            Kind::Probe => self.after_probe(now),
            Kind::KeepAlive => {}
        }
    }

    // What an emit leaves: where it failed, the socket is as it was.
    #[inline(always)]
    fn after_emit(&mut self, ok: bool, now: Instant, emitted: &Emitted) {
        if ok {
            self.after_sending(now, emitted);
        }
    }

    // The one call of `emit`, if there is a peer and the state emits at all.
    pub(crate) fn emit_due<C: Context, E, F: FnOnce(&mut C, (IpRepr, TcpRepr<'_>)) -> Result<(), E>>(
        &mut self,
        cx: &mut C,
        stamp: Option<u32>,
        emit: F,
    ) -> Result<(), E> {
        let tuple = match &self.tuple {
            None => return Ok(()),
            Some(tuple) => tuple,
        };
        let now = cx.now();
        let payload = self.payload(cx, tuple);
        self.sends_packets(cx, tuple, stamp, payload); // for its contract
        let mut packet = (NO_HEADER, self.plain(tuple, stamp));
        let kind = match self.finish_packet(cx, tuple, payload, &mut packet) {
            None => return Ok(()),
            Some(kind) => kind,
        };
        let emitted = Emitted::of(kind, &packet.1);
        self.number_packet(&mut packet);
        let result = emit(cx, packet);
        self.after_emit(result.is_ok(), now, &emitted);
        result
    }
}

impl<'a, G: TsvalSource> Socket<'a, G> {
    /// Emits at most one segment: calls `emit` once with it, or does not call it where nothing is due. A timestamp that
    /// goes out is one that the source of timestamps tells; how often that is asked is in no contract.
    ///
    /// First what the moments that have passed ask for: with the local address gone, the socket is reset; the user
    /// timeout closes it; the retransmission timer lets all behind SND.UNA go out again. The reasons to emit are, in
    /// this order: data, a SYN or a FIN; an acknowledgement whose delay is over; a window that has doubled; the RST of
    /// a closed socket; a keep-alive; a probe. Without one, TIME-WAIT may end.
    ///
    /// What is emitted can be written as a packet of at most 65535 bytes: a window scale is at most 14, no SACK ranges
    /// stand beside the SACK permission, and the options take at most 40 bytes.
    ///
    /// # Errors
    /// The error that `emit` answers is passed on; the socket then stands as it did before the emit, and the next
    /// `dispatch` offers the segment again.
    pub fn dispatch<C: Context, E, F: FnOnce(&mut C, (IpRepr, TcpRepr<'_>)) -> Result<(), E>>(
        &mut self,
        cx: &mut C,
        emit: F,
    ) -> Result<(), E> {
        let before = self.control_block.state;
        let result = self.emit_next(cx, emit);
        self.note_end(before);
        result
    }

    // What `dispatch` does, but for why a connection ended.
    #[inline(always)]
    fn emit_next<C: Context, E, F: FnOnce(&mut C, (IpRepr, TcpRepr<'_>)) -> Result<(), E>>(
        &mut self,
        cx: &mut C,
        emit: F,
    ) -> Result<(), E> {
        if !self.control_block.before_emit(cx) {
            return Ok(());
        }
        let stamp = self.tsval();
        self.control_block.emit_due(cx, stamp, emit)
    }

    // Why the connection ended, where it did in a dispatch that began in this state.
    #[inline(always)]
    fn note_end(&mut self, before: State) {
        let block = &self.control_block;
        self.ended = by_dispatch(before, block.state, block.remote_last_ts().is_some(), self.ended);
    }
}
