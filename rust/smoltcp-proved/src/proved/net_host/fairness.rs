// Made from crates/net_host/src/fairness.rt by rust/translate: change it there.
//! Laws on whose turn it is.

use crate::sockets::sock_tcp::TsvalSource;

/// The turns that `emit` gives follow each other, over any list of `emit`s: each walk begins behind the place that had
/// its turn last.
pub fn turns_follow<G: TsvalSource>() {}

/// Between two turns of a place each other one that is due throughout has had a turn, over any list of `emit`s. So no
/// socket keeps another from transmitting, whatever its peer sends.
pub fn turns_go_round<G>() {}
