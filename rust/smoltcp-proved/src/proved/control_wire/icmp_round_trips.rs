// Made from crates/control_wire/src/icmp_round_trips.rt by rust/translate: change it there.
//! Laws: ICMP messages that are written are read again.

use crate::proved::ip_wire::sum::{checksums_verify, sums_are_words};

/// A message over IPv4 that `emit` wrote parses to itself, where a checksum that is tested was also sent.
pub fn icmpv4_reads_back() {
    checksums_verify();
}

/// A message over IPv6 is read back as it was written, between the same two addresses.
pub fn icmpv6_reads_back() {
    checksums_verify();
    sums_are_words();
}
