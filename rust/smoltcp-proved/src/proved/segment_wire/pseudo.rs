// Made from crates/segment_wire/src/pseudo.rt by rust/translate: change it there.
//! The sum of the pseudo header of a segment that stands behind an IP header.

use crate::proved::ip_wire::sum::{pseudo_sum, swapped_octets};
use crate::proved::ip_wire::{IpAddress, IpRepr, Ipv4Repr};

/// What comes to `pseudo_sum` between the addresses of the header, of a segment of so many bytes: numbers, and others
/// with the low byte first. The addresses are read where they stand, and the sum is folded with the segment's alone.
#[inline(always)]
pub(crate) fn pseudo_parts(ip: &IpRepr, length: usize) -> (u64, u64) {
    match ip {
        IpRepr::Ipv4(header) => pseudo_parts_v4(header, length),
        IpRepr::Ipv6(header) => {
            let sum =
                pseudo_sum(&IpAddress::Ipv6(header.src_addr), &IpAddress::Ipv6(header.dst_addr), 6, length);
            (sum as u64, 0)
        }
    }
}

#[inline(always)]
fn pseudo_parts_v4(header: &Ipv4Repr, length: usize) -> (u64, u64) {
    let addresses = swapped_octets(&header.src_addr.octets()) + swapped_octets(&header.dst_addr.octets());
    (length as u64 % 0x1_0000_0000 + 6, addresses)
}
