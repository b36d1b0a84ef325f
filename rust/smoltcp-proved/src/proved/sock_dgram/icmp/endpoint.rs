// Made from crates/sock_dgram/src/icmp/endpoint.rt by rust/translate: change it there.
//! What an ICMP socket is bound to.

use crate::proved::ip_wire::IpListenEndpoint;

/// Which ICMP messages a socket takes. Ordered as its variants stand.
#[derive(Debug, Clone, Copy, PartialEq, Eq, PartialOrd, Ord, Default)]
pub enum Endpoint {
    /// None.
    #[default]
    Unspecified,
    /// Echo requests and replies with this identifier.
    Ident(u16),
    /// Errors about TCP segments that were sent from here.
    Tcp(IpListenEndpoint),
    /// Errors about UDP datagrams that were sent from here.
    Udp(IpListenEndpoint),
}

impl Endpoint {
    /// Whether a socket can be bound to it: to an identifier always, to TCP or UDP where the port is not zero.
    pub fn is_specified(&self) -> bool {
        match self {
            Endpoint::Unspecified => false,
            Endpoint::Ident(_) => true,
            Endpoint::Tcp(endpoint) => endpoint.port != 0,
            Endpoint::Udp(endpoint) => endpoint.port != 0,
        }
    }
}
