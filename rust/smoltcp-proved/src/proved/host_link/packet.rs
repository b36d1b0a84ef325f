// Made from crates/host_link/src/packet.rt by rust/translate: change it there.
//! A place for one packet.

/// How long a packet may be, in bytes.
pub const LONGEST: usize = 1500;

/// A packet of at most 1500 bytes, or none.
pub struct Packet {
    bytes: [u8; 1500],
    len: usize,
}

impl Packet {
    /// None.
    pub fn none() -> Packet {
        Packet { bytes: [0; 1500], len: 0 }
    }

    /// Whether there is none.
    pub fn is_none(&self) -> bool {
        self.len == 0
    }

    /// Puts a packet in the place of what was there: the first 1500 bytes of one that is longer.
    pub fn put(&mut self, packet: &[u8]) {
        let len = LONGEST.min(packet.len());
        self.bytes[..len].copy_from_slice(&packet[..len]);
        self.len = len;
    }

    /// Takes the packet out, to the beginning of `room`, and answers its length; what does not fit is lost.
    pub fn take_to(&mut self, room: &mut [u8]) -> usize {
        let len = self.len.min(room.len());
        room[..len].copy_from_slice(&self.bytes[..len]);
        self.len = 0;
        len
    }
}
