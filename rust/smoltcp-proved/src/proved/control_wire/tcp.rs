// Made from crates/control_wire/src/tcp.rt by rust/translate: change it there.
//! TCP segments as values.

use crate::proved::control_wire::seq_number::TcpSeqNumber;

/// What a segment's control bits ask for: nothing, PSH, SYN, FIN or RST (RFC 9293, section 3.1).
#[derive(Debug, Clone, Copy, PartialEq, Eq)]
pub enum TcpControl {
    None,
    Psh,
    Syn,
    Fin,
    Rst,
}

impl TcpControl {
    /// This control, with nothing in place of PSH.
    pub fn quash_psh(self) -> TcpControl {
        match self {
            TcpControl::Psh => TcpControl::None,
            _ => self,
        }
    }

    // How many numbers of the sequence space it takes.
    fn len(self) -> usize {
        match self {
            TcpControl::Syn | TcpControl::Fin => 1,
            _ => 0,
        }
    }

    fn is_plain(self) -> bool {
        match self {
            TcpControl::None | TcpControl::Psh => true,
            _ => false,
        }
    }
}

/// The timestamp option (RFC 7323, section 3.2).
#[derive(Debug, Clone, Copy, PartialEq, Eq)]
pub struct TcpTimestampRepr {
    /// The sender's clock.
    pub tsval: u32,
    /// The value that is echoed.
    pub tsecr: u32,
}

impl TcpTimestampRepr {
    /// The option with these two values.
    pub fn new(tsval: u32, tsecr: u32) -> TcpTimestampRepr {
        TcpTimestampRepr { tsval, tsecr }
    }

    /// The option that answers this one: the generator's value, and the echo of the value that came.
    ///
    /// None where there is no generator.
    pub fn generate_reply(&self, generator: Option<TcpTimestampGenerator>) -> Option<TcpTimestampRepr> {
        match generator {
            None => None,
            Some(generator) => Some(TcpTimestampRepr::new(generator(), self.tsval)),
        }
    }
}

/// Answers the value of the timestamp clock.
pub type TcpTimestampGenerator = fn() -> u32;

/// A TCP segment: its header, its options and its payload.
#[derive(Debug, Clone, Copy, PartialEq, Eq)]
pub struct TcpRepr<'a> {
    /// The sender's port.
    pub src_port: u16,
    /// The receiver's port.
    pub dst_port: u16,
    /// What the control bits ask for.
    pub control: TcpControl,
    /// SEG.SEQ: the number of the SYN where there is one, else of the first byte.
    pub seq_number: TcpSeqNumber,
    /// SEG.ACK, where there is an acknowledgement.
    pub ack_number: Option<TcpSeqNumber>,
    /// The window field: in a SYN in bytes, else in units of 2 to the power of the sender's window scale (RFC 7323,
    /// section 2.2).
    pub window_len: u16,
    /// The window scale option, in bits: a SYN alone has one.
    pub window_scale: Option<u8>,
    /// The option with the largest payload that the sender takes, in bytes (RFC 9293, section 3.7.1).
    pub max_seg_size: Option<u16>,
    /// Whether there is the option that permits SACK (RFC 2018, section 2).
    pub sack_permitted: bool,
    /// The blocks of the SACK option: the number of the first byte, and that behind the last (RFC 2018, section 3).
    pub sack_ranges: [Option<(u32, u32)>; 3],
    /// The timestamp option.
    pub timestamp: Option<TcpTimestampRepr>,
    /// The bytes that the segment carries.
    pub payload: &'a [u8],
}

impl TcpRepr<'_> {
    /// A segment between these ports in which nothing else is set.
    pub const fn bare(src_port: u16, dst_port: u16) -> TcpRepr<'static> {
        TcpRepr {
            src_port,
            dst_port,
            control: TcpControl::None,
            seq_number: TcpSeqNumber(0),
            ack_number: None,
            window_len: 0,
            window_scale: None,
            max_seg_size: None,
            sack_permitted: false,
            sack_ranges: [None, None, None],
            timestamp: None,
            payload: &[],
        }
    }

    /// A copy of the segment with this payload in place of its own.
    pub fn with_payload<'p>(&self, payload: &'p [u8]) -> TcpRepr<'p> {
        TcpRepr {
            src_port: self.src_port,
            dst_port: self.dst_port,
            control: self.control,
            seq_number: self.seq_number,
            ack_number: self.ack_number,
            window_len: self.window_len,
            window_scale: self.window_scale,
            max_seg_size: self.max_seg_size,
            sack_permitted: self.sack_permitted,
            sack_ranges: self.sack_ranges,
            timestamp: self.timestamp,
            payload,
        }
    }

    /// A copy of the segment without its payload.
    pub fn without_payload(&self) -> TcpRepr<'static> {
        self.with_payload(&[])
    }

    /// How many bytes the header takes with its options, a multiple of 4 (RFC 9293, section 3.1).
    pub fn header_len(&self) -> usize {
        self.unpadded_len().div_ceil(4) * 4
    }

    /// How many bytes the segment takes with its payload.
    pub fn buffer_len(&self) -> usize {
        self.header_len() + self.payload.len()
    }

    /// How many numbers of the sequence space the segment takes: its payload, and one for SYN or FIN
    /// (RFC 9293, section 3.4).
    pub fn segment_len(&self) -> usize {
        self.payload.len() + self.control.len()
    }

    /// Whether the segment has no payload, and no control but PSH.
    pub fn is_empty(&self) -> bool {
        self.payload.is_empty() && self.control.is_plain()
    }

    // The header and its options, before padding.
    fn unpadded_len(&self) -> usize {
        let mut length = 20 + self.sack_len();
        if self.max_seg_size.is_some() {
            length += 4;
        }
        if self.window_scale.is_some() {
            length += 3;
        }
        if self.sack_permitted {
            length += 2;
        }
        if self.timestamp.is_some() {
            length += 10;
        }
        length
    }

    fn sack_len(&self) -> usize {
        let ranges = sack_count(&self.sack_ranges);
        if ranges == 0 { 0 } else { 2 + 8 * ranges }
    }
}

/// How many blocks there are.
pub fn sack_count(ranges: &[Option<(u32, u32)>; 3]) -> usize {
    let [a, b, c] = ranges;
    a.is_some() as usize + b.is_some() as usize + c.is_some() as usize
}
