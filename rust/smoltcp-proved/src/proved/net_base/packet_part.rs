// Made from crates/net_base/src/packet_part.rt by rust/translate: change it there.
//! What a packet buffer lends of its payload bytes for writing.

use crate::proved::net_base::packet_buffer::{Full, PacketBuffer};

impl<'a, H> PacketBuffer<'a, H> {
    /// The `size` payload bytes from `from` on, for writing: the bytes of a packet that `claim` appended, until the
    /// next change.
    pub fn part_mut(&mut self, from: usize, size: usize) -> &mut [u8] {
        let all = self.all();
        &mut all[from..from + size]
    }
}

impl<'a, H: Copy> PacketBuffer<'a, H> {
    /// Appends a packet, and lends its `size` bytes for writing. What stands in them as the borrow ends is the packet.
    ///
    /// # Errors
    /// `Full` where no place is left, or `size` bytes in one piece are not; nothing changes then.
    pub fn enqueue(&mut self, size: usize, header: H) -> Result<&mut [u8], Full> {
        let (taken, from) = self.claim(size, header);
        if !taken {
            return Err(Full);
        }
        Ok(self.part_mut(from, size))
    }
}
