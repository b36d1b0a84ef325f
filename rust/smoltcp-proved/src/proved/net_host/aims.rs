// Made from crates/net_host/src/aims.rt by rust/translate: change it there.
//! Laws on what the limits of a guard are for.

/// Whatever segments, calls and turns come between: where bytes or a FIN wait and SND.UNA stands at each look for the
/// limit of the state (`window` of `GuardSettings` in ESTABLISHED and CLOSE-WAIT, `closing` in FIN-WAIT-1, CLOSING and
/// LAST-ACK), the next look ends the connection.
pub fn what_stands_ends() {}

/// No look ends a connection of which a byte or the FIN was newly acknowledged within that limit: it is counted from
/// the look that first saw SND.UNA where it is, or from a later one.
pub fn what_moves_is_spared() {}
