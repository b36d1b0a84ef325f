// Made from crates/ip_wire/src/octets.rt by rust/translate: change it there.
//! Numbers of two bytes in network order, the high byte first.

/// The number of two bytes, the high one first.
pub fn word(high: u8, low: u8) -> u16 {
    256 * high as u16 + low as u16
}

/// A number modulo 2^16 as two bytes.
pub fn be16(number: usize) -> [u8; 2] {
    [(number / 256 % 256) as u8, (number % 256) as u8]
}

/// The number of the two bytes at `at`.
pub fn be16_at(bytes: &[u8], at: usize) -> usize {
    crate::kit::be16(bytes, at) as usize
}

/// The number of the four bytes at `at`.
pub fn be32_at(bytes: &[u8], at: usize) -> u32 {
    crate::kit::be32(bytes, at)
}

/// The bytes from `at` on.
pub fn behind(bytes: &[u8], at: usize) -> &[u8] {
    &bytes[at..]
}

/// Writes `bytes` from `at` on.
pub fn put(buffer: &mut [u8], at: usize, bytes: &[u8]) {
    buffer[at..at + bytes.len()].copy_from_slice(bytes);
}

/// Writes two pieces one behind the other, at the beginning.
pub fn put_two(buffer: &mut [u8], head: &[u8], rest: &[u8]) {
    put(buffer, 0, head);
    put(buffer, head.len(), rest);
}

/// Writes three pieces one behind the other, at the beginning.
pub fn put_three(buffer: &mut [u8], head: &[u8], second: &[u8], third: &[u8]) {
    put(buffer, 0, head);
    put(buffer, head.len(), second);
    put(buffer, head.len() + second.len(), third);
}
