// Made from crates/ip_wire/src/sum.rt by rust/translate: change it there.
//! Checksums: ones' complement sums of 16-bit words (RFC 1071).

use crate::proved::ip_wire::address::{IpAddress, Ipv4Address};
use crate::proved::ip_wire::octets::be32_at;

/// The sum of two words, a carry out of the sixteen bits added at the other end.
pub fn ones_add(a: u16, b: u16) -> u16 {
    let total = a as u32 + b as u32;
    if total < 0x10000 { total as u16 } else { (total - 0xffff) as u16 }
}

/// Adds the 16-bit words of `bytes` to a sum, in one pass. An odd last byte is padded with 0.
///
/// A sum over pieces is worked out piece by piece, where all but the last have an even length.
pub fn sum_after(start: u16, bytes: &[u8]) -> u16 {
    sum_after_wide(start as u64, 0, bytes)
}

/// The sum of the Internet checksum (RFC 1071) of `bytes` behind `start` and `swapped`; the latter's words have the low
/// byte first. Neither sum need be folded, and a segment without a payload has nothing more to be read.
#[inline(always)]
pub fn sum_after_wide(start: u64, swapped: u64, bytes: &[u8]) -> u16 {
    if bytes.is_empty() {
        return swapped_word(start, swapped);
    }
    sum_by_eights(start, swapped, bytes)
}

#[inline(never)]
fn sum_by_eights(start: u64, swapped: u64, bytes: &[u8]) -> u16 {
    let mut total = swapped as u128;
    let mut at = 0;
    while at < bytes.len() / 128 * 128 {
        total = total + crate::kit::sixteen_le64(bytes, at);
        at += 128;
    }
    while at < bytes.len() / 32 * 32 {
        total = add_thirty_two(total, bytes, at);
        at += 32;
    }
    while at < bytes.len() / 8 * 8 {
        total = add_eight(total, bytes, at);
        at += 8;
    }
    swapped_word(start, add_few(narrowed(total), bytes))
}

fn add_sixty_four(total: u128, bytes: &[u8], at: usize) -> u128 {
    let first = add_thirty_two(total, bytes, at);
    add_thirty_two(first, bytes, at + 32)
}

// Adds the 32 bytes from `at` on to a wide sum, as numbers of eight bytes with the lowest first, which x86-64 loads
// without a swap: the sum's two bytes are then swapped too (RFC 1071, section 2 (B)). An addition of eight bytes and
// one of its carry take the place of two additions of four.
fn add_thirty_two(total: u128, bytes: &[u8], at: usize) -> u128 {
    total + crate::kit::four_le64(bytes, at)
}

fn add_eight(total: u128, bytes: &[u8], at: usize) -> u128 {
    total + le64_at(bytes, at)
}

// The number of the eight bytes at `at`, the lowest first.
fn le64_at(bytes: &[u8], at: usize) -> u128 {
    crate::kit::le64(bytes, at) as u128
}

// A wide sum with its upper half added to the lower one, and again: it comes to the same.
fn narrowed(total: u128) -> u64 {
    halved(carried(total))
}

// A wide sum with its upper half added to the lower one, and the carry of that.
fn carried(total: u128) -> u64 {
    let once = total % 0x1_0000_0000_0000_0000 + total / 0x1_0000_0000_0000_0000;
    (once % 0x1_0000_0000_0000_0000 + once / 0x1_0000_0000_0000_0000) as u64
}

// Adds the last bytes, fewer than eight, to a wide sum: each test looks at one bit of how many there are.
fn add_few(total: u64, bytes: &[u8]) -> u64 {
    add_last(add_pair(add_four(total, bytes), bytes), bytes)
}

// Adds the four bytes behind the last eight, where there are as many.
fn add_four(total: u64, bytes: &[u8]) -> u64 {
    if bytes.len() % 8 < 4 {
        return total;
    }
    total + le32_at(bytes, bytes.len() / 8 * 8)
}

// Adds the two bytes behind the last four, where there are as many.
fn add_pair(total: u64, bytes: &[u8]) -> u64 {
    if bytes.len() % 4 < 2 {
        return total;
    }
    total + le16_at(bytes, bytes.len() / 4 * 4)
}

// Adds the last byte, where it has no other beside it.
fn add_last(total: u64, bytes: &[u8]) -> u64 {
    if bytes.len() % 2 == 0 {
        return total;
    }
    total + bytes[bytes.len() - 1] as u64
}

// The number of the four bytes at `at`, the lowest first.
fn le32_at(bytes: &[u8], at: usize) -> u64 {
    crate::kit::le32(bytes, at) as u64
}

fn le16_at(bytes: &[u8], at: usize) -> u64 {
    crate::kit::le16(bytes, at) as u64
}

// A wide sum with its upper half added to the lower one: it comes to the same.
fn halved(total: u64) -> u64 {
    total % 0x1_0000_0000 + total / 0x1_0000_0000
}

// A start and a wide sum of numbers with the lowest byte first, as a word.
fn swapped_word(start: u64, total: u64) -> u16 {
    folded(start + 256 * total)
}

// A wide sum as a word, each carry added at the other end.
fn folded(total: u64) -> u16 {
    both_halves((total % 0x10000 + total / 0x10000) as u32)
}

// The two halves of a number added up: beside them stand the same two in the other order, so that the carry of one sum
// is added to the other. No test and no jump.
fn both_halves(total: u32) -> u16 {
    let rotated = total % 0x10000 * 0x10000 + total / 0x10000;
    ((total as u64 + rotated as u64) / 0x10000 % 0x10000) as u16
}

/// The sum of 20 bytes, as a header without options has, with no loop and no call.
#[inline(always)]
pub fn sum_of_twenty(octets: &[u8]) -> u16 {
    sum_of_twenty_after(0, octets)
}

/// The sum of 20 bytes, as [`sum_of_twenty`], and of what was summed before.
#[inline(always)]
pub fn sum_of_twenty_after(start: u16, octets: &[u8]) -> u16 {
    let first = le32_at(octets, 0) + le32_at(octets, 4) + le32_at(octets, 8);
    swapped_word(start as u64, first + le32_at(octets, 12) + le32_at(octets, 16))
}

/// The checksum of `bytes`, and of what was summed before: the complement of the sum.
pub fn checksum_after(start: u16, bytes: &[u8]) -> u16 {
    0xffff - sum_after(start, bytes)
}

/// The sum of the pseudo header of a packet whose payload has `length` bytes, of this protocol (RFC 8200, section 8.1;
/// for IPv4 RFC 9293, section 3.1).
// Inlined, so that no address is put into a value of either version for it.
#[inline(always)]
pub fn pseudo_sum(src: &IpAddress, dst: &IpAddress, protocol: u8, length: usize) -> u16 {
    let rest = length as u64 % 0x1_0000_0000 + protocol as u64;
    word_of(addresses_sum(src, dst) + rest)
}

// The sum of both addresses, not folded.
#[inline(always)]
fn addresses_sum(src: &IpAddress, dst: &IpAddress) -> u64 {
    match (src, dst) {
        (IpAddress::Ipv4(src), IpAddress::Ipv4(dst)) => {
            four_octets(&src.octets()) + four_octets(&dst.octets())
        }
        _ => long_addresses_sum(src, dst),
    }
}

// The sum of two addresses of IPv6. Not inlined, so that a sum over IPv4 keeps no registers for these words.
#[inline(never)]
fn long_addresses_sum(src: &IpAddress, dst: &IpAddress) -> u64 {
    address_sum(src) + address_sum(dst)
}

/// The sum of words that were added up without a carry at the other end, up to 2^62.
pub fn word_of(total: u64) -> u16 {
    folded(halved(total))
}

/// The sum of two IPv4 addresses and of words that were added up before.
pub fn sum_with_addresses(total: u64, src: &Ipv4Address, dst: &Ipv4Address) -> u16 {
    swapped_word(halved(total), swapped_octets(&src.octets()) + swapped_octets(&dst.octets()))
}

/// The octets of an IPv4 address as a number, the lowest first: what they add to a sum of such numbers.
pub fn swapped_octets(octets: &[u8; 4]) -> u64 {
    le32_at(octets, 0)
}

// The sum of an address as numbers of four bytes, not folded.
fn address_sum(address: &IpAddress) -> u64 {
    match address {
        IpAddress::Ipv4(address) => four_octets(&address.octets()),
        IpAddress::Ipv6(address) => sixteen_octets(&address.octets()),
    }
}

fn four_octets(octets: &[u8; 4]) -> u64 {
    be32_at(octets, 0) as u64
}

fn sixteen_octets(octets: &[u8; 16]) -> u64 {
    let first = be32_at(octets, 0) as u64 + be32_at(octets, 4) as u64;
    first + be32_at(octets, 8) as u64 + be32_at(octets, 12) as u64
}

/// A sum over two pieces of which the first has an even length is that of both.
pub fn sums_continue() {}

/// With the checksum in place of a word that was 0, the sum is the word of only ones.
pub fn checksums_verify() {}

/// Where the checksum would be 0, the word of only ones in its place verifies as well (RFC 768).
pub fn ones_verify_for_zero() {}

/// A sum of bytes is a word.
pub fn sums_are_words() {}
