// Made from crates/net_base/src/packet_buffer.rt by rust/translate: change it there.
//! A queue of packets, each with a header, over lent places and lent bytes. As smoltcp's packet buffer.
//!
//! A packet's bytes stand in one piece. Where they don't fit before the end of the payload storage but fit at its
//! beginning, the bytes up to the end become padding: an entry with no header, which is in no list of packets.

use crate::proved::net_base::ring_buffer::{RingBuffer, place};

/// A place of a packet buffer.
#[derive(Debug, Clone, Copy, PartialEq, Eq)]
pub struct PacketMetadata<H> {
    size: usize,
    header: Option<H>,
}

impl<H> PacketMetadata<H> {
    /// A place that nothing stands in, to make the storage of a new buffer of.
    pub const EMPTY: PacketMetadata<H> = PacketMetadata { size: 0, header: None };
}

/// No place is left, or not enough bytes.
#[derive(Debug, Clone, Copy, PartialEq, Eq)]
pub struct Full;

/// No packet is there.
#[derive(Debug, Clone, Copy, PartialEq, Eq)]
pub struct Empty;

/// A queue of packets, each a header and its bytes.
#[derive(Debug)]
pub struct PacketBuffer<'a, H> {
    pub(crate) payload: crate::kit::Storage<'a, u8>,
    pub(crate) metadata: RingBuffer<'a, PacketMetadata<H>>,
    pub(crate) start: usize,
    pub(crate) length: usize,
}

impl<'a, H> PacketBuffer<'a, H> {
    // Lends all payload bytes.
    pub(crate) fn all(&mut self) -> &mut [u8] {
        &mut self.payload
    }
}

impl<'a, H: Copy> PacketBuffer<'a, H> {
    /// An empty buffer of as many places and payload bytes as the slices have.
    pub fn new(
        metadata: impl Into<crate::kit::Storage<'a, PacketMetadata<H>>>,
        payload: impl Into<crate::kit::Storage<'a, u8>>,
    ) -> Self {
        let metadata = metadata.into();
        let payload = payload.into();
        PacketBuffer { metadata: RingBuffer::new(metadata), payload, start: 0, length: 0 }
    }

    /// The two slices: what stands in the places is not told any more.
    pub fn into_slices(self) -> (crate::kit::Storage<'a, PacketMetadata<H>>, crate::kit::Storage<'a, u8>) {
        let PacketBuffer { payload, metadata, start: _, length: _ } = self;
        let (places, _, _) = metadata.into_parts();
        (places, payload)
    }

    /// Removes all packets.
    pub fn reset(&mut self) {
        self.metadata.clear();
        self.start = 0;
        self.length = 0;
    }

    /// How many places there are.
    pub fn packet_capacity(&self) -> usize {
        self.metadata.capacity()
    }

    /// How many payload bytes there are.
    pub fn payload_capacity(&self) -> usize {
        self.payload.len()
    }

    /// How many payload bytes are taken, padding included.
    pub fn payload_bytes_count(&self) -> usize {
        self.length
    }

    /// Whether no place is taken. Padding takes one.
    pub fn is_empty(&self) -> bool {
        self.metadata.is_empty()
    }

    /// Whether every place is taken. Padding takes one.
    pub fn is_full(&self) -> bool {
        self.metadata.is_full()
    }

    // How many payload bytes are free.
    fn room(&self) -> usize {
        self.payload.len() - self.length
    }

    // How many of them stand behind the entries in one piece.
    fn run_len(&self) -> usize {
        let end = place(self.payload.len(), self.start, self.length);
        (self.payload.len() - self.length).min(self.payload.len() - end)
    }

    // An empty payload ring starts anew at the storage's first place.
    fn restart(&mut self) {
        if self.length == 0 {
            self.start = 0;
        }
    }

    // The `size` bytes that stand behind the entries become one more. Answers where they begin.
    // Inlined as `claim`, so that the header is copied once.
    #[inline(always)]
    fn append(&mut self, size: usize, header: Option<H>) -> usize {
        let from = place(self.payload.len(), self.start, self.length);
        self.length += size;
        self.metadata.enqueue_item(PacketMetadata { size, header });
        from
    }

    // Whether two places are free at least.
    fn has_two_places(&self) -> bool {
        1 < self.metadata.window()
    }

    // Where `size` bytes fit in the free places that are not behind the entries, and a place is left for padding too,
    // the run behind the entries becomes padding. Answers whether `size` bytes now fit behind the entries, with a place
    // for them; where not, nothing changed.
    fn pad_for(&mut self, size: usize) -> bool {
        let run = self.run_len();
        if size <= run {
            return true;
        }
        if self.room() - run < size || !self.has_two_places() {
            return false;
        }
        self.append(run, None);
        true
    }

    // Room for `size` bytes where no payload byte is taken: all of the storage is free.
    fn restart_for(&mut self, size: usize) -> bool {
        if self.payload_capacity() < size {
            return false;
        }
        self.restart();
        true
    }

    // Whether no payload byte is taken.
    fn is_bare(&self) -> bool {
        self.length == 0
    }

    // Makes room for an entry of `size` bytes behind the others. Answers whether there is room; where not, nothing
    // changed.
    fn make_room(&mut self, size: usize) -> bool {
        if self.is_full() {
            return false;
        }
        if self.is_bare() {
            return self.restart_for(size);
        }
        self.pad_for(size)
    }

    /// Appends a packet of `size` bytes as they stand in the storage. Answers whether there was room, and where they
    /// begin; `part_mut` lends them. The first step of `enqueue`, for a caller that lends on what that lends.
    #[inline(always)]
    pub fn claim(&mut self, size: usize, header: H) -> (bool, usize) {
        if !self.make_room(size) {
            return (false, 0);
        }
        (true, self.append(size, Some(header)))
    }

    // Appends an entry of the first of the `size` bytes behind the others, as `f` leaves them.
    fn append_with<F: FnOnce(&mut [u8]) -> usize>(&mut self, size: usize, header: Option<H>, f: F) -> usize {
        let from = place(self.payload.len(), self.start, self.length);
        let kept = lend_bytes(&mut self.payload, from, size, f);
        self.length += kept;
        self.metadata.enqueue_item(PacketMetadata { size: kept, header });
        kept
    }

    /// Appends a packet whose bytes `f` writes: it is lent `max_size` bytes and answers how many of them, from the
    /// first on, to keep. This count is answered.
    ///
    /// # Errors
    /// `Full` where no place is left, or `max_size` bytes in one piece are not; nothing changes then.
    pub fn enqueue_with_infallible<F: FnOnce(&mut [u8]) -> usize>(
        &mut self,
        max_size: usize,
        header: H,
        f: F,
    ) -> Result<usize, Full> {
        if !self.make_room(max_size) {
            return Err(Full);
        }
        Ok(self.append_with(max_size, Some(header), f))
    }

    // Whether the first entry is padding.
    fn starts_padded(&self) -> bool {
        !self.metadata.is_empty() && self.metadata.front().header.is_none()
    }

    // Takes the first entry. Answers its header, and where its bytes stand and how many.
    fn drop_first(&mut self) -> (Option<H>, (usize, usize)) {
        let first = self.metadata.front();
        let size = first.size;
        let from = self.start;
        self.metadata.dequeue_allocated(1);
        self.start = place(self.payload.len(), from, size);
        self.length -= size;
        (first.header, (from, size))
    }

    /// Padding that stands first leaves. The first step of `peek`, `dequeue` and `dequeue_with`, for a caller that
    /// lends on what `first` lends.
    pub fn skip_padding(&mut self) {
        while self.starts_padded() {
            self.drop_first();
        }
    }

    /// The `size` payload bytes from `from` on: the bytes of a packet that `take_first` took, until the next change.
    pub fn part(&self, from: usize, size: usize) -> &[u8] {
        &self.payload[from..from + size]
    }

    /// The header and the bytes of the first packet, where no padding stands first.
    ///
    /// # Errors
    /// `Empty` where there is none.
    pub fn first(&self) -> Result<(&H, &[u8]), Empty> {
        match self.metadata.get_allocated(0, 1).first() {
            Some(PacketMetadata { size, header: Some(header) }) => Ok((header, self.part(self.start, *size))),
            _ => Err(Empty),
        }
    }

    /// Lends the header and the bytes of the first packet, which stays.
    ///
    /// # Errors
    /// `Empty` where there is none.
    pub fn peek(&mut self) -> Result<(&H, &[u8]), Empty> {
        self.skip_padding();
        self.first()
    }

    /// Takes the first packet. Answers its header, where in the payload storage its bytes stand, and how many they are;
    /// `part` lends them. `None` where there is no packet.
    ///
    /// The two steps of `dequeue`, for a caller that lends the bytes on and says what it then is.
    // Inlined, so that a caller that wants no header copies none.
    #[inline(always)]
    pub fn take_first(&mut self) -> Option<(H, (usize, usize))> {
        self.skip_padding();
        if self.is_empty() {
            return None;
        }
        let (header, place) = self.drop_first();
        Some((header?, place))
    }

    /// Takes the first packet, and lends its bytes.
    ///
    /// # Errors
    /// `Empty` where there is none.
    pub fn dequeue_packet(&mut self) -> Result<(H, &[u8]), Empty> {
        let taken = self.take_first();
        self.lent(taken)
    }

    // The bytes of a packet that `take_first` took, beside its header. `Empty` where it took none.
    fn lent(&self, taken: Option<(H, (usize, usize))>) -> Result<(H, &[u8]), Empty> {
        match taken {
            Some((header, (from, size))) => Ok((header, self.part(from, size))),
            None => Err(Empty),
        }
    }

    // The header of the first entry, where that is a packet.
    fn first_header(&self) -> Option<H> {
        if self.metadata.is_empty() {
            return None;
        }
        self.metadata.front().header
    }

    // Lends `f` this header and the bytes of the first entry.
    fn write_first<R, F: FnOnce(&H, &mut [u8]) -> R>(&mut self, header: &H, f: F) -> R {
        let size = self.metadata.front().size;
        lend_packet(&mut self.payload, self.start, size, header, f)
    }

    /// Lends `f` the header and the bytes of the first packet, these for writing. Where `f` answers `Ok`, the packet
    /// leaves; where it answers `Err`, it stays first, with its bytes as `f` left them. `f`'s answer is passed on.
    ///
    /// # Errors
    /// `Empty` where there is no packet.
    pub fn dequeue_packet_with<R, E, F: FnOnce(&H, &mut [u8]) -> Result<R, E>>(
        &mut self,
        f: F,
    ) -> Result<Result<R, E>, Empty> {
        self.skip_padding();
        let Some(header) = self.first_header() else {
            return Err(Empty);
        };
        let outcome = self.write_first(&header, f);
        if outcome.is_ok() {
            self.drop_first();
        }
        Ok(outcome)
    }
}

// Lends `count` bytes from `from` on.
fn lend_bytes<F: FnOnce(&mut [u8]) -> usize>(places: &mut [u8], from: usize, count: usize, f: F) -> usize {
    f(&mut places[from..from + count])
}

// Lends `count` bytes from `from` on, beside a header.
fn lend_packet<H, R, F: FnOnce(&H, &mut [u8]) -> R>(
    places: &mut [u8],
    from: usize,
    count: usize,
    header: &H,
    f: F,
) -> R {
    f(header, &mut places[from..from + count])
}

/// Making room for a packet adds padding at most, which is in no list of packets.
pub fn room_keeps_packets<H: Copy>() {}

/// Where there is no room for a packet, it stays as it is: a refusal changes nothing.
pub fn refusal_changes_nothing<H: Copy>() {}

/// Whatever is left in the bytes that `enqueue` lends, the packets have the headers of before, and then the new one.
pub fn enqueue_keeps_the_order<H: Copy>() {}

/// The packets are the same once the padding in front of them is gone.
pub fn skipping_keeps_packets<H: Copy>() {}

/// With a free place and no payload byte taken, a packet is taken exactly where it is at most as long as the payload
/// storage.
pub fn empty_payload_takes_all_that_fits<H: Copy>() {}
