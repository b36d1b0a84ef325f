// Made from crates/sock_tcp/src/kept.rt by rust/translate: change it there.
//! What a control block may have or not have: each value stands beside a flag, since the `Option` of a moment takes as
//! many bytes as two moments.

use crate::proved::control_wire::TcpSeqNumber;
use crate::proved::net_base::time::{Duration, Instant};
use crate::proved::sock_core::kept::kept;
use crate::proved::sock_tcp::control_block::ControlBlock;
use crate::proved::sock_tcp::timer::AckDelayTimer;

/// Which of its variants an [`AckDelayTimer`] has.
#[derive(Debug, Clone, Copy)]
pub enum DelayKind {
    /// `Idle`.
    Idle,
    /// `Waiting`.
    Waiting,
    /// `Immediate`.
    Immediate,
}

impl DelayKind {
    // The timer that waits until this moment, if it does.
    #[inline(always)]
    fn until(self, moment: Instant) -> AckDelayTimer {
        match self {
            DelayKind::Idle => AckDelayTimer::Idle,
            DelayKind::Waiting => AckDelayTimer::Waiting(moment),
            DelayKind::Immediate => AckDelayTimer::Immediate,
        }
    }
}

impl<'a> ControlBlock<'a> {
    pub(crate) fn timeout(&self) -> Option<Duration> {
        kept(self.has_timeout, self.timeout)
    }

    pub(crate) fn keep_timeout(&mut self, timeout: Option<Duration>) {
        match timeout {
            Some(timeout) => {
                self.has_timeout = true;
                self.timeout = timeout;
            }
            None => self.has_timeout = false,
        }
    }

    pub(crate) fn keep_alive(&self) -> Option<Duration> {
        kept(self.has_keep_alive, self.keep_alive)
    }

    pub(crate) fn keep_keep_alive(&mut self, interval: Option<Duration>) {
        match interval {
            Some(interval) => {
                self.has_keep_alive = true;
                self.keep_alive = interval;
            }
            None => self.has_keep_alive = false,
        }
    }

    pub(crate) fn ack_delay(&self) -> Option<Duration> {
        kept(self.has_ack_delay, self.ack_delay)
    }

    pub(crate) fn keep_ack_delay(&mut self, delay: Option<Duration>) {
        match delay {
            Some(delay) => {
                self.has_ack_delay = true;
                self.ack_delay = delay;
            }
            None => self.has_ack_delay = false,
        }
    }

    pub(crate) fn remote_last_ts(&self) -> Option<Instant> {
        kept(self.has_remote_last_ts, self.remote_last_ts)
    }

    pub(crate) fn idle_at(&self) -> Option<Instant> {
        kept(self.has_idle_at, self.idle_at)
    }

    pub(crate) fn local_rx_last_seq(&self) -> Option<TcpSeqNumber> {
        kept(self.has_local_rx_last_seq, self.local_rx_last_seq)
    }

    pub(crate) fn local_rx_last_ack(&self) -> Option<TcpSeqNumber> {
        kept(self.has_local_rx_last_ack, self.local_rx_last_ack)
    }

    pub(crate) fn ack_delay_timer(&self) -> AckDelayTimer {
        self.ack_delay_kind.until(self.ack_delay_until)
    }
}
