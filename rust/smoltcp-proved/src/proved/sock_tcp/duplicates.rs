// Made from crates/sock_tcp/src/duplicates.rt by rust/translate: change it there.
//! Bytes that came twice, which an acknowledgement tells by its first SACK block (RFC 2883, section 4).

use crate::proved::control_wire::{TcpRepr, TcpSeqNumber};
use crate::proved::sock_tcp::control_block::ControlBlock;
use crate::proved::sock_tcp::process::Answer;
use crate::proved::sock_tcp::refused::is_plain;

/// How a segment is answered.
#[derive(Debug, Clone, Copy, PartialEq, Eq)]
pub enum Response {
    /// Not at all.
    Nothing,
    /// By an acknowledgement. Where so many of the segment's first bytes came before, its first SACK block tells them.
    Ack(u32),
    /// By an RST.
    Rst,
}

impl Answer {
    // An acknowledgement tells that so many bytes came before.
    #[inline(always)]
    pub(crate) fn telling(self, count: u32) -> Response {
        match self {
            Answer::Nothing => Response::Nothing,
            Answer::Ack => Response::Ack(count),
            Answer::Rst => Response::Rst,
        }
    }

    // It tells of none.
    #[inline(always)]
    pub(crate) fn plain(self) -> Response {
        match self {
            Answer::Nothing => Response::Nothing,
            Answer::Ack => Response::Ack(0),
            Answer::Rst => Response::Rst,
        }
    }
}

impl<'a> ControlBlock<'a> {
    // How many bytes from this number on came before: up to RCV.NXT, or to the end of a range that is held.
    #[inline(always)]
    fn came_from(&self, number: TcpSeqNumber) -> usize {
        let next = self.next_ack();
        let back = next.since(number);
        if back <= self.rx_buffer.capacity() {
            return back.saturating_sub(if self.rx_fin_received { 1 } else { 0 });
        }
        let offset = number.since(next);
        match self.rx_buffer.range_around(offset) {
            None => 0,
            Some((_, end)) => end.saturating_sub(offset),
        }
    }

    // How many of a segment's first bytes came before.
    #[inline(always)]
    pub(crate) fn came_before(&self, repr: &TcpRepr<'_>) -> u32 {
        if self.remote_has_sack && (self.is_heeding() && is_plain(repr.control)) {
            repr.payload.len().min(self.came_from(repr.seq_number)) as u32
        } else {
            0
        }
    }
}
