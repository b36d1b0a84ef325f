// Made from crates/sock_tcp/src/explain.rt by rust/translate: change it there.
//! What `process` makes of a segment, asked for beforehand: the row of its tables (RFC 9293, section 3.10.7).

use crate::proved::control_wire::{TcpControl, TcpRepr, TcpSeqNumber};
use crate::proved::ip_wire::IpRepr;
use crate::proved::net_base::time::Instant;
use crate::proved::sock_core::Context;
use crate::proved::sock_core::seq::before;
use crate::proved::sock_tcp::control_block::ControlBlock;
use crate::proved::sock_tcp::rules::Rules;
use crate::proved::sock_tcp::socket::Socket;
use crate::proved::sock_tcp::state::State;
use crate::proved::sock_tcp::verdict::Verdict;
use crate::proved::sock_tcp::window::Window;
use core::fmt;

/// What becomes of a segment, and why. Where nothing else is said, a row is one by either rules.
#[derive(Debug, Clone, Copy, PartialEq, Eq)]
pub enum Row {
    /// It is for another socket, or cannot open a connection here (RFC 9293, sections 3.10.7.1 and 3.10.7.2).
    NotAccepted,
    /// Dropped: neither a SYN nor an RST, in SYN-SENT (RFC 9293, section 3.10.7.3).
    NoSyn,
    /// Dropped: an RST that does not acknowledge the SYN, in SYN-SENT (RFC 9293, section 3.10.7.3).
    ResetUnacceptable,
    /// Dropped by the RFCs' rules: an RST in TIME-WAIT (RFC 1337, section 3).
    ResetInTimeWait,
    /// Dropped: an RST outside of the receive window (RFC 9293, section 3.10.7.4; RFC 5961, section 3.2).
    ResetOutside,
    /// Dropped: it acknowledges nothing (RFC 9293, section 3.10.7.4, fifth).
    NoAck,
    /// Dropped: it acknowledges what lies before SND.UNA. By the RFCs' rules only where it brings nothing, or the
    /// number lies too far before (RFC 5961, section 5.2).
    OldAck,
    /// Answered by an RST: it acknowledges something else than the SYN (RFC 9293, sections 3.10.7.3 and 3.10.7.4).
    AckUnacceptable,
    /// Challenged: it acknowledges what was never sent (RFC 9293, section 3.10.7.4; RFC 5961, section 5.2); by
    /// smoltcp's rules, what was never given to the socket.
    AckUnsent,
    /// Challenged by the RFCs' rules: an RST in the receive window, but not at RCV.NXT (RFC 5961, section 3.2).
    ResetChallenged,
    /// Challenged by the RFCs' rules: a SYN in a synchronized state (RFC 5961, section 4.2).
    SynChallenged,
    /// Challenged by the RFCs' rules: its timestamp lies before TS.Recent (RFC 7323, section 5.3).
    OldTimestamp,
    /// Acknowledged, and nothing else, without bytes at most once a second: it begins before RCV.NXT, and brings
    /// nothing from there on (RFC 9293, section 3.10.7.4, first).
    OldDuplicate,
    /// Likewise: it lies beyond the receive window, which may be closed (RFC 9293, section 3.10.7.4, first). By the
    /// RFCs' rules an RST with bytes may be such, and is not answered.
    BeyondWindow,
    /// By the RFCs' rules: it lies outside of the receive window, but its acknowledgement and its window are heard (RFC
    /// 9293, section 3.10.7.4, first).
    HeardOutside,
    /// A SYN in LISTEN, or one that answers in SYN-SENT (RFC 9293, sections 3.10.7.2 and 3.10.7.3).
    Opens,
    /// An RST that counts: the connection ends, or a listener listens again (RFC 9293, section 3.10.7.4, second).
    Reset,
    /// Nothing of it is taken in this state: a second FIN, all in TIME-WAIT, no SYN in LISTEN, and a SYN in the receive
    /// window, by the RFCs' rules only in SYN-RECEIVED (RFC 9293, sections 3.10.7.2 and 3.10.7.4).
    Ignored,
    /// A FIN that counts, with the bytes before it (RFC 9293, section 3.10.7.4, eighth).
    Fin,
    /// Bytes at RCV.NXT (RFC 9293, section 3.10.7.4, seventh).
    InOrder,
    /// Bytes behind a gap, held if there is place (RFC 9293, section 3.10.7.4, seventh; RFC 5681, section 4.2).
    BehindGap,
    /// Challenged by smoltcp's rules: it acknowledges nothing new, in LAST-ACK (RFC 9293, section 3.10.7.4, fifth).
    NothingNew,
    /// An acknowledgement without bytes (RFC 9293, section 3.10.7.4, fifth).
    BareAck,
}

impl Row {
    /// What the row prints.
    pub fn text(self) -> &'static str {
        match self {
            Row::NotAccepted => "not for this socket",
            Row::NoSyn => "no SYN while one is awaited",
            Row::ResetUnacceptable => "RST without an acceptable ACK in SYN-SENT",
            Row::ResetInTimeWait => "RST in TIME-WAIT",
            Row::ResetOutside => "RST outside of the receive window",
            Row::NoAck => "no ACK",
            Row::OldAck => "ACK before SND.UNA",
            Row::AckUnacceptable => "unacceptable ACK of the SYN",
            Row::AckUnsent => "ACK of what was never sent",
            Row::ResetChallenged => "RST in the receive window, but not at RCV.NXT",
            Row::SynChallenged => "SYN in a synchronized state",
            Row::OldTimestamp => "timestamp before TS.Recent",
            Row::OldDuplicate => "before the receive window",
            Row::BeyondWindow => "beyond the receive window",
            Row::HeardOutside => "outside of the receive window, but its ACK is heard",
            Row::Opens => "SYN that opens",
            Row::Reset => "RST that counts",
            Row::Ignored => "nothing that the state takes",
            Row::Fin => "FIN that counts",
            Row::InOrder => "bytes at RCV.NXT",
            Row::BehindGap => "bytes behind a gap",
            Row::NothingNew => "ACK of nothing new in LAST-ACK",
            Row::BareAck => "ACK without bytes",
        }
    }
}

impl fmt::Display for Row {
    fn fmt(&self, f: &mut fmt::Formatter<'_>) -> fmt::Result {
        write!(f, "{}", self.text())
    }
}

fn opening_row(control: TcpControl) -> Row {
    match control {
        TcpControl::Rst => Row::Reset,
        TcpControl::Syn => Row::Opens,
        _ => Row::Ignored,
    }
}

// No second FIN counts.
pub(crate) fn fin_row(state: State) -> Row {
    match state {
        State::SynReceived | State::Established | State::FinWait1 | State::FinWait2 => Row::Fin,
        _ => Row::Ignored,
    }
}

// So many bytes, so far past RCV.NXT.
fn bytes_row(count: usize, offset: usize) -> Row {
    if count == 0 {
        Row::BareAck
    } else if offset == 0 {
        Row::InOrder
    } else {
        Row::BehindGap
    }
}

fn plain_row(old: bool, state: State, count: usize, offset: usize) -> Row {
    match state {
        State::Closed | State::TimeWait => Row::Ignored,
        State::LastAck if old => Row::NothingNew,
        _ => bytes_row(count, offset),
    }
}

fn counted_row(old: bool, state: State, control: TcpControl, count: usize, offset: usize) -> Row {
    match control {
        TcpControl::Rst => Row::Reset,
        TcpControl::Fin => fin_row(state),
        TcpControl::None => plain_row(old, state, count, offset),
        _ => Row::Ignored,
    }
}

// Outside of the window.
pub(crate) fn place_row(window: &Window, number: TcpSeqNumber) -> Row {
    if before(number, window.start) { Row::OldDuplicate } else { Row::BeyondWindow }
}

// By smoltcp's rules; an RST is not answered.
pub(crate) fn answered_row(control: TcpControl, window: &Window, number: TcpSeqNumber) -> Row {
    match control {
        TcpControl::Rst => Row::ResetOutside,
        _ => place_row(window, number),
    }
}

impl<'a> ControlBlock<'a> {
    fn dropped_row(&self, repr: &TcpRepr<'_>) -> Row {
        match (self.state, repr.control, repr.ack_number) {
            (State::SynSent, TcpControl::Rst, _) => Row::ResetUnacceptable,
            (State::SynSent, _, _) => Row::NoSyn,
            (State::TimeWait, TcpControl::Rst, _) => Row::ResetInTimeWait,
            (_, TcpControl::Rst, _) => Row::ResetOutside,
            (_, _, None) => Row::NoAck,
            (_, _, Some(_)) => Row::OldAck,
        }
    }

    // What acknowledges nothing new, by smoltcp's rules.
    fn has_no_news(&self, repr: &TcpRepr<'_>) -> bool {
        match crate::kit::in_force(self.rules) {
            Rules::Smoltcp => {
                let acked = self.acked(repr.control, repr.ack_number);
                !acked.fin && acked.len == 0
            }
            Rules::Rfc => false,
        }
    }

    fn inside_row(&self, window: &Window, repr: &TcpRepr<'_>) -> Row {
        let (number, length) = (repr.seq_number, repr.payload.len());
        let cut = window.cut(number, length);
        let control = window.counted_control(repr.control, number, length);
        let old = self.has_no_news(repr);
        let count = cut.of(repr.payload).len();
        counted_row(old, self.state, control, count, cut.offset)
    }

    fn tested_row(&self, repr: &TcpRepr<'_>) -> Row {
        if let State::Listen | State::SynSent = self.state {
            return opening_row(repr.control);
        }
        let window = self.accepted_window();
        if window.is_inside(repr.seq_number, repr.payload.len()) {
            self.inside_row(&window, repr)
        } else {
            self.refused_row(&window, repr)
        }
    }

    // With the acknowledgement and the window that count.
    fn passed_row(&self, repr: &TcpRepr<'_>) -> Row {
        match crate::kit::in_force(self.rules) {
            Rules::Smoltcp => self.tested_row(repr),
            Rules::Rfc => {
                let windowed = self.windowed(repr);
                self.tested_row(&windowed)
            }
        }
    }

    fn row(&self, now: Instant, repr: &TcpRepr<'_>) -> Row {
        match self.verdict_by_rules(now, repr) {
            Verdict::Drop => self.dropped_row(repr),
            Verdict::Reset => Row::AckUnacceptable,
            Verdict::Challenge => self.challenged_row(now, repr),
            Verdict::Pass => self.passed_row(repr),
        }
    }
}

impl<'a, G> Socket<'a, G> {
    /// Which row of the tables of [`Socket::process`] a segment falls into, by the rules that the socket has. Nothing
    /// changes. The payload has at most 65535 bytes. What a row says of `process`: `explained::rows_say_what_becomes`.
    pub fn explain<C: Context>(&self, cx: &C, ip_repr: &IpRepr, repr: &TcpRepr<'_>) -> Row {
        if !self.control_block.accepts(ip_repr, repr) {
            return Row::NotAccepted;
        }
        self.control_block.row(cx.now(), repr)
    }
}
