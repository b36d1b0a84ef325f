// Made from crates/smoltcp_socket/src/any_socket.rt by rust/translate: change it there.
//! From a socket to the enum of all kinds, and back.

use crate::proved::smoltcp_socket::socket::Socket;
use crate::proved::sock_dgram::{icmp, raw, udp};

/// A kind of socket, or the enum of all kinds.
///
/// `G` is that of the enum `Socket<'a, G>`: the type of a TCP socket's source of timestamps.
pub trait AnySocket<'a, G>: Sized {
    /// The enum that holds this socket.
    fn upcast(self) -> Socket<'a, G>;

    /// The socket that the enum holds; `None` where it is of another kind.
    fn downcast<'c>(socket: &'c Socket<'a, G>) -> Option<&'c Self>;

    /// Borrows the socket for writing; `None` where the enum holds another kind. Afterwards the enum holds what was
    /// left behind the reference; where nothing was borrowed it is unchanged.
    fn downcast_mut<'c>(socket: &'c mut Socket<'a, G>) -> Option<&'c mut Self>;
}

/// Any socket is of the enum's own kind.
impl<'a, G> AnySocket<'a, G> for Socket<'a, G> {
    fn upcast(self) -> Socket<'a, G> {
        self
    }

    fn downcast<'c>(socket: &'c Socket<'a, G>) -> Option<&'c Self> {
        Some(socket)
    }

    fn downcast_mut<'c>(socket: &'c mut Socket<'a, G>) -> Option<&'c mut Self> {
        Some(socket)
    }
}

impl<'a, G> AnySocket<'a, G> for raw::Socket<'a> {
    fn upcast(self) -> Socket<'a, G> {
        Socket::Raw(self)
    }

    fn downcast<'c>(socket: &'c Socket<'a, G>) -> Option<&'c Self> {
        match socket {
            Socket::Raw(held) => Some(held),
            _ => None,
        }
    }

    fn downcast_mut<'c>(socket: &'c mut Socket<'a, G>) -> Option<&'c mut Self> {
        match socket {
            Socket::Raw(lent) => Some(lent),
            _ => None,
        }
    }
}

impl<'a, G> AnySocket<'a, G> for icmp::Socket<'a> {
    fn upcast(self) -> Socket<'a, G> {
        Socket::Icmp(self)
    }

    fn downcast<'c>(socket: &'c Socket<'a, G>) -> Option<&'c Self> {
        match socket {
            Socket::Icmp(held) => Some(held),
            _ => None,
        }
    }

    fn downcast_mut<'c>(socket: &'c mut Socket<'a, G>) -> Option<&'c mut Self> {
        match socket {
            Socket::Icmp(lent) => Some(lent),
            _ => None,
        }
    }
}

impl<'a, G> AnySocket<'a, G> for udp::Socket<'a> {
    fn upcast(self) -> Socket<'a, G> {
        Socket::Udp(self)
    }

    fn downcast<'c>(socket: &'c Socket<'a, G>) -> Option<&'c Self> {
        match socket {
            Socket::Udp(held) => Some(held),
            _ => None,
        }
    }

    fn downcast_mut<'c>(socket: &'c mut Socket<'a, G>) -> Option<&'c mut Self> {
        match socket {
            Socket::Udp(lent) => Some(lent),
            _ => None,
        }
    }
}

impl<'a, G> AnySocket<'a, G> for crate::proved::sock_tcp::Socket<'a, G> {
    fn upcast(self) -> Socket<'a, G> {
        Socket::Tcp(self)
    }

    fn downcast<'c>(socket: &'c Socket<'a, G>) -> Option<&'c Self> {
        match socket {
            Socket::Tcp(held) => Some(held),
            _ => None,
        }
    }

    fn downcast_mut<'c>(socket: &'c mut Socket<'a, G>) -> Option<&'c mut Self> {
        match socket {
            Socket::Tcp(lent) => Some(lent),
            _ => None,
        }
    }
}
