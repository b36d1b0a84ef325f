// Made from crates/two_hosts/src/context.rt by rust/translate: change it there.
//! The hosts' network: addresses, and the random words of each host.

use smoltcp_proved::sockets::wire::Ipv4Address;

/// The address of host a.
pub const A: Ipv4Address = smoltcp_proved::kit::ipv4([10, 0, 0, 1]);

/// The address of host b.
pub const B: Ipv4Address = smoltcp_proved::kit::ipv4([10, 0, 0, 2]);

/// The longest IP packet of the wire, in bytes.
pub const MTU: usize = 1500;

/// An interface of a host of this program.
pub type Interface = smoltcp_proved::proved::net_host::Interface<Words>;

/// A generator of random words that starts with its seed, so that a run can be repeated and its numbers are easy to
/// read. A host on a network where anybody may listen draws from `net_host::Secret`.
pub struct Words {
    /// The next word.
    pub word: u32,
}

impl smoltcp_proved::proved::host_context::Words for Words {
    fn next(&mut self) -> u32 {
        let word = self.word;
        self.word = word.wrapping_mul(1_664_525).wrapping_add(1_013_904_223);
        word
    }
}
