// Made from crates/sock_core/src/seq.rt by rust/translate: change it there.
//! The order of sequence numbers (RFC 9293, section 3.4), and the shift of window fields (RFC 7323, section 2.3).

use crate::proved::control_wire::TcpSeqNumber;

/// Whether `a` comes before `b`: `(a - b) mod 2^32` is at least 2^31.
///
/// Numbers of places less than 2^31 apart compare as their places do.
pub fn before(a: TcpSeqNumber, b: TcpSeqNumber) -> bool {
    distance(a, b) >= 0x8000_0000
}

/// Whether `a` comes before `b` or is `b`.
pub fn not_after(a: TcpSeqNumber, b: TcpSeqNumber) -> bool {
    before(a, b) || a == b
}

/// `b` where `a` comes before it, else `a`.
pub fn later(a: TcpSeqNumber, b: TcpSeqNumber) -> TcpSeqNumber {
    if before(a, b) { b } else { a }
}

/// By how many bits a window is shifted so that the 16 bits of the window field hold it: the bits that write
/// `capacity`, less 16, at least 0 and at most 14 (RFC 7323, section 2.3).
pub fn window_shift(capacity: usize) -> u8 {
    let above = capacity / 0x1_0000;
    if above == 0 {
        return 0;
    }
    (above.ilog2() + 1).min(14) as u8
}

// How far `a` lies past `b`, going round.
fn distance(a: TcpSeqNumber, b: TcpSeqNumber) -> u32 {
    a.0.wrapping_sub(b.0)
}
