//! What a program that logs is told: states of TCP sockets, segments that are sent again, packets that are dropped. The
//! features `log` and `defmt` are those of crates of the same sources that have these dependencies (`ship/dist`).

/// Tells `log` and `defmt` a text with values, each by its `Display`.
macro_rules! tell {
    ($text:literal $(, $value:expr)* $(,)?) => {{
        #[cfg(feature = "log")]
        log::debug!($text $(, $value)*);
        #[cfg(feature = "defmt")]
        defmt::debug!($text $(, defmt::Display2Format(&$value))*);
        #[cfg(not(any(feature = "log", feature = "defmt")))]
        { $(let _ = &$value;)* }
    }};
}

pub(crate) use tell;

/// Whether anybody is told.
pub(crate) const TOLD: bool = cfg!(any(feature = "log", feature = "defmt"));

/// `defmt::Format` of the values that a program logs: what their `Display` writes, or their `Debug`, where they have no
/// other. Addresses are `core::net`'s, for which `defmt` has it.
#[cfg(feature = "defmt")]
mod formats {
    use crate::iface::{HardwareAddress, MulticastError, PollResult, RouteTableFull, SocketHandle};
    use crate::proved::sock_dgram::{icmp, raw, udp as proved_udp};
    use crate::sockets::{PollAt, tcp, udp};
    use crate::time::{Duration, Instant};
    use crate::wire::{
        self, IpAddress, IpCidr, IpEndpoint, IpListenEndpoint, IpProtocol, IpVersion, Ipv4Cidr, Ipv6Cidr,
    };
    use defmt::{Debug2Format, Display2Format, Format, Formatter, write};

    macro_rules! format {
        ($adapter:ident: $($name:ty),* $(,)?) => { $(
            impl Format for $name {
                fn format(&self, to: Formatter<'_>) {
                    write!(to, "{}", $adapter(self))
                }
            }
        )* };
    }

    format!(Display2Format:
        Duration, Instant, IpAddress, IpCidr, IpEndpoint, IpListenEndpoint, IpProtocol, IpVersion, Ipv4Cidr, Ipv6Cidr,
        HardwareAddress, MulticastError, RouteTableFull, SocketHandle, wire::Error, wire::Ipv4Repr, wire::Ipv6Repr,
        tcp::Ended, tcp::State, tcp::ConnectError, tcp::ListenError, tcp::RecvError, tcp::SendError, udp::UdpMetadata,
        proved_udp::BindError, proved_udp::RecvError, proved_udp::SendError, raw::SendError,
    );

    format!(Debug2Format:
        PollAt, PollResult, tcp::CongestionControl, tcp::Negotiated, tcp::Rules, icmp::Endpoint,
        wire::Icmpv4Repr<'_>, wire::Icmpv6Repr<'_>,
    );
}
