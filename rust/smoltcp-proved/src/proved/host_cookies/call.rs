// Made from crates/host_cookies/src/call.rt by rust/translate: change it there.
//! What a cookie is made of.
use crate::proved::ip_wire::IpAddress;

/// A SYN, by its endpoints and its number.
#[derive(Debug, Clone, Copy, PartialEq, Eq)]
pub struct Call {
    /// The sender's address.
    pub remote: IpAddress,
    /// The own address.
    pub local: IpAddress,
    /// The sender's port.
    pub remote_port: u16,
    /// The own port.
    pub local_port: u16,
    /// The number of the SYN.
    pub number: u32,
}
