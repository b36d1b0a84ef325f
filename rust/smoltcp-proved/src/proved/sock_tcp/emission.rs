// Made from crates/sock_tcp/src/emission.rt by rust/translate: change it there.
//! What a dispatch emits a segment for, and what is kept of one that went out.

use crate::proved::control_wire::{TcpRepr, TcpSeqNumber};
use crate::proved::sock_tcp::round_trips::stamp_of;

/// What a dispatch emits a segment for.
#[derive(Clone, Copy)]
pub enum Kind {
    /// Data, a SYN, a FIN, an acknowledgement or an RST.
    Plain,
    /// A byte goes into a window that leaves nothing (RFC 9293, section 3.8.6.1).
    Probe,
    /// A byte that the peer has acknowledged asks whether it is there (RFC 9293, section 3.8.4).
    KeepAlive,
}

/// What is kept of a segment once it went out.
#[derive(Clone, Copy)]
pub struct Emitted {
    /// What it was emitted for.
    pub kind: Kind,
    /// Its sequence number.
    pub seq_number: TcpSeqNumber,
    /// How many sequence numbers it takes.
    pub len: usize,
    /// The sequence number behind them.
    pub end: TcpSeqNumber,
    /// The acknowledgement that it carries.
    pub ack_number: Option<TcpSeqNumber>,
    /// Its window field.
    pub window_len: u16,
    /// The timestamp that it has, TSval.
    pub stamp: Option<u32>,
}

impl Emitted {
    // What is kept of this segment.
    pub(crate) fn of(kind: Kind, repr: &TcpRepr<'_>) -> Emitted {
        let len = repr.segment_len();
        Emitted {
            kind,
            seq_number: repr.seq_number,
            len,
            end: repr.seq_number.plus(len),
            ack_number: repr.ack_number,
            window_len: repr.window_len,
            stamp: stamp_of(repr.timestamp),
        }
    }
}
