// Made from crates/ip_wire/src/round_trips.rt by rust/translate: change it there.
//! Laws: what is written is read again.

/// An IPv4 header that `emit` wrote before its payload parses to itself, with that payload, where a checksum that is
/// tested was also sent.
pub fn ipv4_reads_back() {}

/// An IPv6 header that `emit` wrote before its payload parses to itself, with that payload.
pub fn ipv6_reads_back() {}

/// The checksum that `fill_checksum` writes verifies, whatever the packet.
pub fn filled_checksum_verifies() {}
