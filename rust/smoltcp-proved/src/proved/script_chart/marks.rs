// Made from crates/script_chart/src/marks.rt by rust/translate: change it there.
//! What segments repeat, and what they ask.

use crate::proved::control_wire::TcpControl;
use crate::proved::script_chart::drawing::Part;
use crate::proved::sock_pair::{Segment, Side};

/// What a segment repeats of those that its side emitted before, or what it asks.
#[derive(Clone, Copy)]
pub enum Mark {
    /// Nothing.
    New,
    /// A zero byte in the place of one that the other side has, which asks whether it is there (RFC 9293, section
    /// 3.8.4). No byte of a script is zero.
    KeepAlive,
    /// Bytes where the other side told a window of 0, so many of which were emitted before (RFC 9293, section 3.8.6.1).
    Probe(u32),
    /// So many of its first sequence numbers were emitted before, at least one.
    Retransmission(u32),
    /// It acknowledges the same as the segment before it, with the same window, and carries nothing, while bytes of
    /// the other side are in flight (RFC 5681, section 2): so many times in turn.
    DuplicateAck(usize),
}

impl Mark {
    /// What it says, in the form of a text and a number.
    pub fn parts(&self) -> [Part<'static>; 2] {
        match self {
            Mark::New => [Part::Nothing, Part::Nothing],
            Mark::KeepAlive => [Part::Text("keep-alive"), Part::Nothing],
            Mark::Probe(_) => [Part::Text("zero-window probe"), Part::Nothing],
            Mark::Retransmission(_) => [Part::Text("retransmission"), Part::Nothing],
            Mark::DuplicateAck(count) => [Part::Text("duplicate ACK "), Part::Place(*count)],
        }
    }
}

// What a side emitted.
#[derive(Clone, Copy)]
struct Emitted {
    // The number behind the last that it used.
    end: Option<u32>,
    // The last acknowledgement and window, and how many times they were said again.
    ack: Option<(u32, u16)>,
    repeats: usize,
    // Whether its SYN answered one.
    answered: bool,
    // The last acknowledgement and window that came.
    heard: Option<(u32, u16)>,
}

const NOTHING: Emitted = Emitted { end: None, ack: None, repeats: 0, answered: false, heard: None };

impl Emitted {
    // How many numbers from this one on were used.
    fn used_from(&self, number: u32) -> u32 {
        match self.end {
            Some(end) if is_before(number, end) => end.wrapping_sub(number),
            _ => 0,
        }
    }

    // How many of a segment's numbers were used. A SYN that now answers one says so for the first time.
    fn used_again(&mut self, segment: &Segment) -> u32 {
        let answers =
            segment.header.repr.control == TcpControl::Syn && segment.header.repr.ack_number.is_some();
        if answers && !self.answered {
            self.answered = true;
            return 0;
        }
        self.used_from(segment.header.repr.seq_number.0).min(length(segment))
    }

    // Counts a segment of so many numbers from this one on.
    fn count(&mut self, number: u32, length: u32) {
        let end = number.wrapping_add(length);
        match self.end {
            Some(last) if !is_before(last, end) => {}
            _ => self.end = Some(end),
        }
    }

    // Counts an acknowledgement, which repeats the last one where it may.
    fn acknowledge(&mut self, ack: u32, window: u16, may_repeat: bool) -> Mark {
        if may_repeat && self.ack == Some((ack, window)) {
            self.repeats = self.repeats.saturating_add(1);
            return Mark::DuplicateAck(self.repeats);
        }
        self.ack = Some((ack, window));
        self.repeats = 0;
        Mark::New
    }
}

/// Whether a sequence number is before another one: less than 2^31 places (RFC 9293, section 3.4).
pub fn is_before(a: u32, b: u32) -> bool {
    a.wrapping_sub(b) >= 2_147_483_648
}

/// What both sides emitted so far.
#[derive(Clone, Copy)]
pub struct Marker {
    a: Emitted,
    b: Emitted,
}

impl Marker {
    /// Nothing was emitted.
    pub fn new() -> Marker {
        Marker { a: NOTHING, b: NOTHING }
    }

    /// The other side took this segment.
    pub fn hear(&mut self, segment: &Segment) {
        if let (Some(ack), false) = (segment.header.repr.ack_number, is_reset(segment)) {
            let heard = Some((ack.0, segment.header.repr.window_len));
            match segment.from {
                Side::A => self.b.heard = heard,
                Side::B => self.a.heard = heard,
            }
        }
    }

    /// What this segment repeats. It counts as emitted from here on.
    pub fn mark(&mut self, segment: &Segment) -> Mark {
        match segment.from {
            Side::A => repeated(&mut self.a, &self.b, segment),
            Side::B => repeated(&mut self.b, &self.a, segment),
        }
    }
}

fn repeated(own: &mut Emitted, other: &Emitted, segment: &Segment) -> Mark {
    if is_zero_byte(segment) {
        return Mark::KeepAlive;
    }
    let (number, length) = (segment.header.repr.seq_number.0, length(segment));
    let again = own.used_again(segment);
    own.count(number, length);
    let Some(ack) = segment.header.repr.ack_number else {
        return of_numbers(again);
    };
    let may_repeat = length == 0 && !is_reset(segment) && other.used_from(ack.0) > 0;
    let probes = !segment.payload.is_empty() && own.heard == Some((number, 0));
    match own.acknowledge(ack.0, segment.header.repr.window_len, may_repeat) {
        Mark::New if probes => Mark::Probe(again),
        Mark::New => of_numbers(again),
        mark => mark,
    }
}

fn of_numbers(again: u32) -> Mark {
    if again > 0 { Mark::Retransmission(again) } else { Mark::New }
}

fn is_zero_byte(segment: &Segment) -> bool {
    segment.payload.len() == 1 && segment.payload.first() == Some(&0)
}

fn is_reset(segment: &Segment) -> bool {
    segment.header.repr.control == TcpControl::Rst
}

/// How many sequence numbers a segment takes: one for each byte, one for a SYN, and one for a FIN.
pub fn length(segment: &Segment) -> u32 {
    let flag = match segment.header.repr.control {
        TcpControl::Syn | TcpControl::Fin => 1,
        TcpControl::None | TcpControl::Psh | TcpControl::Rst => 0,
    };
    let bytes = segment.payload.len().min(65_535) as u32;
    bytes + flag
}
