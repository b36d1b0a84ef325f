// Made from crates/sock_core/src/receive_buffer.rt by rust/translate: change it there.
//! The receive buffer of a stream socket: the bytes that came in order, and those that came ahead of a gap.

use crate::proved::net_base::ring_buffer::RingBuffer;
use crate::proved::sock_core::ranges::Ranges;

/// The bytes of a stream that came and were not read: those that came in order are the queue, and those that came ahead
/// of a gap are held for the window's places behind it.
///
/// At most four ranges are held, apart by at least one place, and never the place behind the queue.
#[derive(Debug)]
pub struct ReceiveBuffer<'a> {
    pub(crate) ring: RingBuffer<'a, u8>,
    ranges: Ranges,
}

/// Bytes that come and are not refused: the queue grows by the run from its end on, and what stays held is counted
/// from its new end.
pub fn takes_in() {}

/// Bytes that come in order join the queue at once, and behind them what was held there.
pub fn joins_at_once() {}

/// What is held stays where it is when bytes are read, and nothing is held in a cleared buffer.
pub fn keeps_held() {}

/// The ranges are in order and apart, and hold exactly the offsets at which a byte is held.
pub fn ranges_are_held() {}

/// A range lies around a number, as wire numbers compare, exactly where its offsets lie around the number's distance
/// past the queue's end, RCV.NXT.
pub fn reaches_in_wire_numbers() {}

impl<'a> ReceiveBuffer<'a> {
    /// The ring's queue is the buffer's, and nothing is held. The ring has at most 2^30 places.
    pub fn new(ring: RingBuffer<'a, u8>) -> ReceiveBuffer<'a> {
        ReceiveBuffer { ring, ranges: Ranges::new() }
    }

    /// The ring, whose queue is the buffer's. What was held behind it is not told any more.
    pub fn into_ring(self) -> RingBuffer<'a, u8> {
        let ReceiveBuffer { ring, ranges: _ } = self;
        ring
    }

    /// What is always so: there are at most 2^30 places and four ranges, and the place behind the queue is free.
    pub fn keeps_bounds(&self) {
        // each for its contract
        self.ring.len();
        self.ranges.len();
    }

    /// How many bytes the queue has when the buffer is full.
    pub fn capacity(&self) -> usize {
        self.ring.capacity()
    }

    /// How many bytes the queue has.
    pub fn len(&self) -> usize {
        self.ring.len()
    }

    /// Whether the queue has no byte.
    pub fn is_empty(&self) -> bool {
        self.ring.is_empty()
    }

    /// How many bytes fit behind the queue, those that are held counted among them.
    pub fn window(&self) -> usize {
        self.ring.window()
    }

    /// Whether no byte is held ahead of a gap.
    pub fn holds_nothing(&self) -> bool {
        self.ranges.is_empty()
    }

    /// Forgets all bytes.
    pub fn clear(&mut self) {
        self.ring.clear();
        self.ranges = Ranges::new();
    }

    /// Takes bytes that lie in the window, the first of them at the offset from the queue's end, and answers whether it
    /// did.
    ///
    /// They replace what was held there. Then the run of held bytes from the queue's end on joins the queue. They are
    /// refused exactly where they lie behind the queue's end and would make a fifth range; then nothing changes.
    pub fn take_in(&mut self, offset: usize, bytes: &[u8]) -> bool {
        match self.ranges.add_then_remove_front(offset, bytes.len()) {
            Err(_) => false,
            Ok(run) => {
                self.ring.write_unallocated(offset, bytes);
                self.ring.enqueue_unallocated(run);
                true
            }
        }
    }

    /// Moves the queue's first bytes into the beginning of `out`, as many as there are and fit, and answers how many.
    /// The rest of `out` stays as it was.
    pub fn dequeue_slice(&mut self, out: &mut [u8]) -> usize {
        self.ring.dequeue_slice(out)
    }

    /// Drops the queue's first bytes, as many as there are but at most `count`, and answers how many.
    pub fn consume(&mut self, count: usize) -> usize {
        let count = count.min(self.ring.len());
        self.ring.dequeue_allocated(count);
        count
    }

    /// Lends `f` the queue, up to the slice's end. `f` answers how many of these bytes to remove, from the first on;
    /// its answer is passed on.
    pub fn dequeue_shown<R, F: FnOnce(&[u8]) -> (usize, R)>(&mut self, f: F) -> (usize, R) {
        self.ring.dequeue_shown(f)
    }

    /// The queue, up to the slice's end, but at most `size` bytes.
    pub fn peek(&self, size: usize) -> &[u8] {
        self.ring.get_allocated(0, size)
    }

    /// Copies the queue's first bytes into the beginning of `out`, as many as there are and fit, and answers how many.
    /// The rest of `out` stays as it was, and so does the queue.
    pub fn peek_slice(&self, out: &mut [u8]) -> usize {
        self.ring.read_allocated(0, out)
    }

    /// The range of held bytes that stands at `index` in their order, counted from 0: its first offset from the queue's
    /// end, and the offset behind its last.
    pub fn range_at(&self, index: usize) -> Option<(usize, usize)> {
        self.ranges.get(index)
    }

    /// The first range of held bytes that begins at or before `offset` and ends at or behind it.
    pub fn range_around(&self, offset: usize) -> Option<(usize, usize)> {
        for index in 0..self.ranges.len() {
            if let Some((start, end)) = self.ranges.get(index) {
                if start <= offset && offset <= end {
                    return Some((start, end));
                }
            }
        }
        None
    }
}
