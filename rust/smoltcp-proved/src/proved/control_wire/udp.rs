// Made from crates/control_wire/src/udp.rt by rust/translate: change it there.
//! UDP headers as values.

/// A UDP header: the ports that the datagram comes from and goes to (RFC 768).
#[derive(Debug, Clone, Copy, PartialEq, Eq)]
pub struct UdpRepr {
    /// The sender's port.
    pub src_port: u16,
    /// The receiver's port.
    pub dst_port: u16,
}

impl UdpRepr {
    /// How many bytes the header takes: 8 (RFC 768).
    pub fn header_len(&self) -> usize {
        8
    }
}
