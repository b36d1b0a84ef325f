// Made from crates/smoltcp_socket/src/laws.rt by rust/translate: change it there.
//! Laws of the kinds of sockets, in the words of the contracts.

/// The enum of a socket that was upcast gives that socket back for its own kind, and nothing for the three others.
pub fn kinds_are_apart<G>() {}
