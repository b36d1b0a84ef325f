// Made from crates/net_host/src/addresses.rt by rust/translate: change it there.
//! The addresses of an interface change.

use crate::kit::Vec;
use crate::proved::net_host::cidr::IpCidr;
use crate::proved::net_host::interface::Interface;

impl<W> Interface<W> {
    /// Sets the addresses, as after a lease of DHCP: from the next packet on. A connection from an address that is no
    /// longer there ends, with nothing sent, when its socket is next polled, as smoltcp's.
    pub fn set_addresses(&mut self, addresses: Vec<IpCidr>) {
        self.inner.environment.addresses = addresses;
    }
}
