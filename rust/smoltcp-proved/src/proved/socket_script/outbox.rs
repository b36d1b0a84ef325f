// Made from crates/socket_script/src/outbox.rt by rust/translate: change it there.
//! The context of each call, and what a call emits.

use crate::kit::alloc::{AllocError, Global};
use crate::proved::host_context::{Interface, Words};
use crate::proved::ip_wire::{Checksum, ChecksumCapabilities, IpAddress, Ipv4Address};
use crate::proved::socket_script::packet::Packet;

/// The context of every call of a socket.
pub type Host = Interface<Word, Outbox>;

/// What a random word is, however often one is drawn.
#[derive(Clone, Copy)]
pub struct Word(pub u32);

impl Words for Word {
    fn next(&mut self) -> u32 {
        self.0
    }
}

/// An emit that fails: because the line says so, or because memory ran out.
#[derive(Clone, Copy)]
pub struct Failed;

/// At most one packet that a socket emitted.
pub struct Outbox {
    /// Where packets are made.
    pub alloc: Global,
    /// Whether each emit fails.
    pub fails: bool,
    /// What was emitted.
    pub packet: Option<Packet>,
    /// Whether memory ran out.
    pub is_out: bool,
}

impl Outbox {
    /// An empty one.
    pub fn new(alloc: Global, fails: bool) -> Outbox {
        Outbox { alloc, fails, packet: None, is_out: false }
    }

    /// Keeps a packet, if there was memory for it and the emit is not to fail.
    pub fn emit(&mut self, made: Result<Packet, AllocError>) -> Result<(), Failed> {
        match made {
            Ok(packet) if !self.fails => {
                self.packet = Some(packet);
                Ok(())
            }
            Ok(_) => Err(Failed),
            Err(_) => {
                self.is_out = true;
                Err(Failed)
            }
        }
    }
}

/// Where and when a call is made.
#[derive(Clone, Copy)]
pub struct Moment {
    /// The moment in milliseconds.
    pub millis: u32,
    /// What a random word is.
    pub word: u32,
    /// The own address.
    pub addr: IpAddress,
    /// Whether the checksum of IPv4 headers is tested and sent.
    pub ipv4: Checksum,
}

/// The context of a call whose emit may fail.
pub fn host(alloc: Global, at: Moment, fails: bool) -> Host {
    let mut host = Interface::new(v4_of(at.addr), Word(at.word), Outbox::new(alloc, fails));
    if let IpAddress::Ipv6(addr) = at.addr {
        host.set_ipv6_addr(addr);
    }
    host.set_millis(at.millis);
    host.checksums = ChecksumCapabilities { ipv4: at.ipv4, ..ChecksumCapabilities::default() };
    host
}

// The address of version 4 of a host with this address.
fn v4_of(addr: IpAddress) -> Ipv4Address {
    match addr {
        IpAddress::Ipv4(addr) => addr,
        IpAddress::Ipv6(_) => crate::kit::ipv4([10, 0, 0, 1]),
    }
}
