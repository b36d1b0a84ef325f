// Made from crates/sock_dgram/src/raw/laws.rt by rust/translate: change it there.
//! Laws of raw sockets, in the words of the contracts.

use crate::proved::ip_wire::IpRepr;
use crate::proved::sock_core::Context;

/// Over any list of calls on a socket: what `emit` was called with and took, with what a dispatch dropped at its place,
/// followed by what then waits, is what waited at the start, followed by what was sent since, in this order, the
/// checksums of IPv4 headers apart, which a dispatch sets; and what was received, with what a short slice dropped at
/// its place, followed by what then waits, is what waited at the start, followed by what `process` queued since, in
/// this order.
///
/// What each call does to the socket is what its own contract says. A `send` comes into the list as the `send_slice`
/// of the bytes that are left in what it lends. The calls of a list share the types of their contexts, errors and
/// closures.
pub fn datagrams_keep_their_order<
    C: Context,
    E,
    F: FnOnce(&mut C, (IpRepr, &[u8])) -> Result<(), E>,
    G: FnOnce(&mut [u8]) -> usize,
>() {
}
