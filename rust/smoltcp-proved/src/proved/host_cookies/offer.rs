// Made from crates/host_cookies/src/offer.rt by rust/translate: change it there.
//! What a SYN offers beside the size of a segment, in the five lowest bits of the answer's timestamp (RFC 7323, section
//! 3, has the peer send it back).

fn scale_bits(scale: Option<u8>) -> u8 {
    match scale {
        None => 15,
        Some(scale) => scale.min(14),
    }
}

/// The bits that tell a window scale, of which more than 14 counts as 14, and whether SACK is permitted: below 32.
pub fn offer_bits(scale: Option<u8>, sack: bool) -> u8 {
    let bits = scale_bits(scale);
    if sack { bits + 16 } else { bits }
}

/// The window scale that a timestamp tells, at most 14, or none.
pub fn scale_in(stamp: u32) -> Option<u8> {
    let bits = (stamp % 16) as u8;
    if bits == 15 { None } else { Some(bits) }
}

/// Whether a timestamp tells that SACK is permitted.
pub fn sack_in(stamp: u32) -> bool {
    stamp / 16 % 2 == 1
}

/// The last value that this clock had which has these bits: at most 31 before this one. So no later timestamp of the
/// clock lies before it.
pub fn stamped(clock: u32, bits: u8) -> u32 {
    let clock = u64::from(clock);
    let back = (clock + 32 - u64::from(bits)) % 32;
    ((clock + 4_294_967_296 - back) % 4_294_967_296) as u32
}

/// What a number stands for beside the class, where the answer told these bits.
pub fn told_number(bits: u8) -> u16 {
    u16::from(bits) + 1
}

/// What a SYN offers comes back by the answer's timestamp, which is at most 31 ticks of the clock old.
pub fn offers_come_back() {}
