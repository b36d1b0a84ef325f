// Made from crates/segment_wire/src/round_trips.rt by rust/translate: change it there.
//! Laws: segments, datagrams and packets that are written are read again.

use crate::proved::ip_wire::round_trips::{ipv4_reads_back, ipv6_reads_back};
use crate::proved::ip_wire::sum::{checksums_verify, ones_verify_for_zero, sums_are_words};

/// A segment that `emit` wrote parses to itself, where a checksum that is tested was also sent.
pub fn tcp_reads_back() {
    checksums_verify();
    sums_are_words();
}

/// A datagram that `emit` wrote parses to itself, with its payload, where a checksum that is tested was also
/// sent.
pub fn udp_reads_back() {
    checksums_verify();
    ones_verify_for_zero();
    sums_are_words();
}

/// A packet that `emit_tcp` or `emit_udp` wrote parses to itself, where each checksum that is tested was also sent, and
/// whatever stands behind it, as the padding of a short Ethernet frame.
pub fn packets_read_back() {
    checksums_verify();
    ones_verify_for_zero();
    sums_are_words();
    ipv4_reads_back();
    ipv6_reads_back();
}
