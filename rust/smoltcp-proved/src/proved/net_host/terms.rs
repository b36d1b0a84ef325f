// Made from crates/net_host/src/terms.rt by rust/translate: change it there.
//! Under which settings the sockets of a set were looked at last.

use crate::proved::net_host::limits::Limits;

/// What the moments depend on at which sockets want to be asked, beside the sockets themselves and their guards.
pub struct Terms {
    /// The largest IP packet, in bytes.
    pub mtu: usize,
    /// The limits that their guards set them.
    pub guards: Limits,
}

impl Terms {
    /// Whether they are the same.
    pub(crate) fn are(&self, mtu: usize, guards: &Limits) -> bool {
        self.mtu == mtu && self.guards.are(guards)
    }
}
