//! Sockets that wake the tasks which wait for them, over the proved ones: smoltcp's names and argument forms. By hand,
//! and not proved: when a task is woken, and what passes a call on.
//!
//! [`net_host`](crate::proved::net_host), and the programs on it, have their sockets from here.
use crate::proved::sock_core;
use crate::proved::sock_tcp::Generator;

pub mod icmp;
pub mod raw;
pub mod tcp;
pub mod udp;
mod wakers;

#[doc(hidden)]
pub use self::tcp as sock_tcp;
pub use crate::proved::smoltcp_socket::{storage, time, wire};
pub use sock_core::{Context, PollAt};

/// A socket of any kind. `G` is the type of a TCP socket's source of timestamps, and is left out.
#[derive(Debug)]
#[allow(clippy::large_enum_variant)] // as smoltcp's: a set has room for any
pub enum Socket<'a, G = Generator> {
    /// Whole IP packets.
    Raw(raw::Socket<'a>),
    /// ICMP messages.
    Icmp(icmp::Socket<'a>),
    /// UDP datagrams.
    Udp(udp::Socket<'a>),
    /// One end of a TCP connection.
    Tcp(tcp::Socket<'a, G>),
}

impl<G> Socket<'_, G> {
    /// When the socket wants its next `dispatch`, as its kind says.
    pub fn poll_at<C: Context>(&self, cx: &C) -> PollAt {
        match self {
            Socket::Raw(socket) => socket.poll_at(cx),
            Socket::Icmp(socket) => socket.poll_at(cx),
            Socket::Udp(socket) => socket.poll_at(cx),
            Socket::Tcp(socket) => socket.poll_at(cx),
        }
    }
}

/// A kind of socket, or a socket of any kind, as smoltcp's.
pub trait AnySocket<'a, G = Generator>: Sized {
    /// The socket as one of any kind.
    fn upcast(self) -> Socket<'a, G>;

    /// The socket, where it is of this kind.
    fn downcast<'c>(socket: &'c Socket<'a, G>) -> Option<&'c Self>;

    /// The socket, for writing, where it is of this kind.
    fn downcast_mut<'c>(socket: &'c mut Socket<'a, G>) -> Option<&'c mut Self>;
}

impl<'a, G> AnySocket<'a, G> for Socket<'a, G> {
    fn upcast(self) -> Socket<'a, G> {
        self
    }

    fn downcast<'c>(socket: &'c Socket<'a, G>) -> Option<&'c Self> {
        Some(socket)
    }

    fn downcast_mut<'c>(socket: &'c mut Socket<'a, G>) -> Option<&'c mut Self> {
        Some(socket)
    }
}

macro_rules! kinds {
    ($($kind:ty => $variant:ident;)*) => {$(
        impl<'a, G> AnySocket<'a, G> for $kind {
            fn upcast(self) -> Socket<'a, G> {
                Socket::$variant(self)
            }

            fn downcast<'c>(socket: &'c Socket<'a, G>) -> Option<&'c Self> {
                match socket {
                    Socket::$variant(socket) => Some(socket),
                    _ => None,
                }
            }

            fn downcast_mut<'c>(socket: &'c mut Socket<'a, G>) -> Option<&'c mut Self> {
                match socket {
                    Socket::$variant(socket) => Some(socket),
                    _ => None,
                }
            }
        }

        impl<'a, G> From<$kind> for Socket<'a, G> {
            fn from(socket: $kind) -> Socket<'a, G> {
                socket.upcast()
            }
        }
    )*};
}

kinds! {
    raw::Socket<'a> => Raw;
    icmp::Socket<'a> => Icmp;
    udp::Socket<'a> => Udp;
    tcp::Socket<'a, G> => Tcp;
}
