// Made from crates/smoltcp_socket/src/socket.rt by rust/translate: change it there.
//! One socket of any kind.

use crate::proved::sock_core::{Context, PollAt};
use crate::proved::sock_dgram::{icmp, raw, udp};
use crate::proved::sock_tcp::Generator;

/// A socket of any kind, for a list of sockets as an interface layer keeps it.
///
/// `G` is the type of a TCP socket's source of timestamps, and is left out.
#[derive(Debug)]
pub enum Socket<'a, G = Generator> {
    /// Whole IP packets.
    Raw(raw::Socket<'a>),
    /// ICMP messages.
    Icmp(icmp::Socket<'a>),
    /// UDP datagrams.
    Udp(udp::Socket<'a>),
    /// One end of a TCP connection.
    Tcp(crate::proved::sock_tcp::Socket<'a, G>),
}

impl<'a, G> Socket<'a, G> {
    /// When the socket wants its next `dispatch`, in this context, as its kind says: at once, at a moment, or after the
    /// next packet that comes in.
    pub fn poll_at<C: Context>(&self, cx: &C) -> PollAt {
        match self {
            Socket::Raw(socket) => socket.poll_at(cx),
            Socket::Icmp(socket) => socket.poll_at(cx),
            Socket::Udp(socket) => socket.poll_at(cx),
            Socket::Tcp(socket) => socket.poll_at(cx),
        }
    }
}
