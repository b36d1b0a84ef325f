// Made from crates/control_wire/src/seq_number.rt by rust/translate: change it there.
//! Sequence numbers, which wrap at 2^32.

/// A sequence number of TCP, which wraps at 2^32 (RFC 9293, section 3.4).
#[derive(Debug, Clone, Copy, PartialEq, Eq)]
pub struct TcpSeqNumber(pub u32);

impl TcpSeqNumber {
    /// The number `count` places after this one.
    pub fn plus(self, count: usize) -> TcpSeqNumber {
        TcpSeqNumber(self.0.wrapping_add(count as u32))
    }

    /// The number `count` places before this one.
    pub fn minus(self, count: usize) -> TcpSeqNumber {
        TcpSeqNumber(self.0.wrapping_sub(count as u32))
    }

    /// How many places this number stands after `from`, counted round the circle.
    pub fn since(self, from: TcpSeqNumber) -> usize {
        self.0.wrapping_sub(from.0) as usize
    }

    /// Says that the number has 32 bits, which a proof over a `Model` does not see by itself.
    pub fn in_range(self) {}
}
