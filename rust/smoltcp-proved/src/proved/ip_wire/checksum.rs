// Made from crates/ip_wire/src/checksum.rt by rust/translate: change it there.
//! Which checksums are computed and tested here, and which by the device.

/// Whether a checksum is tested on receipt, computed before sending, both or neither.
#[derive(Debug, Clone, Copy, PartialEq, Eq)]
pub enum Checksum {
    Both,
    Rx,
    Tx,
    None,
}

impl Checksum {
    /// Whether the checksum is tested on receipt.
    pub fn rx(&self) -> bool {
        match self {
            Checksum::Both | Checksum::Rx => true,
            Checksum::Tx | Checksum::None => false,
        }
    }

    /// Whether the checksum is computed before sending.
    pub fn tx(&self) -> bool {
        match self {
            Checksum::Both | Checksum::Tx => true,
            Checksum::Rx | Checksum::None => false,
        }
    }
}

/// What is done for the checksum of each protocol.
#[derive(Debug, Clone, Copy, PartialEq, Eq)]
pub struct ChecksumCapabilities {
    /// Of IPv4 headers.
    pub ipv4: Checksum,
    /// Of UDP datagrams.
    pub udp: Checksum,
    /// Of TCP segments.
    pub tcp: Checksum,
    /// Of ICMPv4 messages.
    pub icmpv4: Checksum,
    /// Of ICMPv6 messages.
    pub icmpv6: Checksum,
}

impl ChecksumCapabilities {
    /// No checksum is tested or computed.
    pub fn ignored() -> ChecksumCapabilities {
        ChecksumCapabilities {
            ipv4: Checksum::None,
            udp: Checksum::None,
            tcp: Checksum::None,
            icmpv4: Checksum::None,
            icmpv6: Checksum::None,
        }
    }
}

impl Default for ChecksumCapabilities {
    /// Every checksum is tested and computed.
    fn default() -> ChecksumCapabilities {
        ChecksumCapabilities {
            ipv4: Checksum::Both,
            udp: Checksum::Both,
            tcp: Checksum::Both,
            icmpv4: Checksum::Both,
            icmpv6: Checksum::Both,
        }
    }
}
