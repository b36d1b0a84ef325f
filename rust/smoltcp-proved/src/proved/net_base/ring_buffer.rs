// Made from crates/net_base/src/ring_buffer.rt by rust/translate: change it there.
//! A queue over a lent slice, which goes around its end. As smoltcp's ring buffer.

/// A queue of items in a lent slice. The places behind the queue are spare: they can be written before they join it.
///
/// The queue begins at a place of the slice and goes around its end, so what is lent in one piece may be shorter than
/// what is there: it ends where the queue or the spare places do, or at the slice's end.
#[derive(Debug)]
pub struct RingBuffer<'a, T> {
    pub(crate) storage: crate::kit::Storage<'a, T>,
    pub(crate) read_at: usize,
    pub(crate) length: usize,
}

impl<'a, T: Copy> RingBuffer<'a, T> {
    /// An empty queue, all of whose places are spare and hold what stood in `storage`.
    pub fn new(storage: impl Into<crate::kit::Storage<'a, T>>) -> Self {
        let storage = storage.into();
        RingBuffer { storage, read_at: 0, length: 0 }
    }

    /// The queue of `count` items that begins at the place `read_at` of `storage` and goes around its end: one that was
    /// taken apart by `into_parts`. The other places are spare.
    pub fn from_parts(storage: impl Into<crate::kit::Storage<'a, T>>, read_at: usize, count: usize) -> Self {
        let storage = storage.into();
        RingBuffer { storage, read_at, length: count }
    }

    /// The slice, the place at which the queue begins, and how many items it holds.
    pub fn into_parts(self) -> (crate::kit::Storage<'a, T>, usize, usize) {
        let RingBuffer { storage, read_at, length } = self;
        (storage, read_at, length)
    }

    /// How many items the queue can hold.
    pub fn capacity(&self) -> usize {
        self.storage.len()
    }

    /// How many items the queue holds.
    pub fn len(&self) -> usize {
        self.length
    }

    /// Whether the queue holds no item.
    pub fn is_empty(&self) -> bool {
        self.length == 0
    }

    /// Whether no place is spare.
    pub fn is_full(&self) -> bool {
        self.length == self.storage.len()
    }

    /// How many places are spare: the capacity less the queue's length.
    pub fn window(&self) -> usize {
        self.storage.len() - self.length
    }

    /// Empties the queue. It starts anew at the slice's first place.
    pub fn clear(&mut self) {
        self.read_at = 0;
        self.length = 0;
    }

    /// Appends the longest beginning of `items` that fits, and answers its length. An empty queue begins anew at the
    /// slice's first place.
    pub fn enqueue_slice(&mut self, items: &[T]) -> usize {
        self.restart_if_empty();
        let count = items.len().min(self.storage.len() - self.length);
        self.write_behind(&items[..count]);
        count
    }

    /// Lends `f` the spare places behind the queue, up to the slice's end. `f` answers how many items it wrote at their
    /// beginning, and these join the queue; its answer is passed on. An empty queue begins anew at the slice's first
    /// place.
    pub fn enqueue_lent<R, F: FnOnce(&mut [T]) -> (usize, R)>(&mut self, f: F) -> (usize, R) {
        self.restart_if_empty();
        let from = place(self.storage.len(), self.read_at, self.length);
        let count = (self.storage.len() - self.length).min(self.storage.len() - from);
        let (size, outcome) = lend(&mut self.storage, from, count, f);
        self.length += size;
        (size, outcome)
    }

    /// Moves the first items into the beginning of `out`, as many as there are and fit, and answers their count. The
    /// rest of `out` stays as it was.
    pub fn dequeue_slice(&mut self, out: &mut [T]) -> usize {
        let count = self.read_allocated(0, out);
        self.dequeue_allocated(count);
        count
    }

    /// Lends `f` the queue, up to the slice's end. `f` answers how many of these items to remove, from the first on;
    /// its answer is passed on.
    pub fn dequeue_shown<R, F: FnOnce(&[T]) -> (usize, R)>(&mut self, f: F) -> (usize, R) {
        let len = self.length;
        let lent = self.get_allocated(0, len);
        let (size, outcome) = show(lent, f);
        self.dequeue_allocated(size);
        (size, outcome)
    }

    /// The queue from `offset` on, up to the slice's end, but at most `count` items.
    pub fn get_allocated(&self, offset: usize, count: usize) -> &[T] {
        if self.length <= offset {
            return &[];
        }
        let from = place(self.storage.len(), self.read_at, offset);
        let count = count.min(self.length - offset).min(self.storage.len() - from);
        &self.storage[from..from + count]
    }

    /// Copies items from `offset` on into the beginning of `out`, as many as there are and fit, and answers their
    /// count. The rest of `out` stays as it was.
    pub fn read_allocated(&self, offset: usize, out: &mut [T]) -> usize {
        if self.length <= offset {
            return 0;
        }
        let count = out.len().min(self.length - offset);
        read_cells(&self.storage, self.read_at, offset, &mut out[..count]);
        count
    }

    /// Removes the first `count` items, of which there are so many. Their places come behind the spare ones, which keep
    /// their offsets from the queue's end.
    pub fn dequeue_allocated(&mut self, count: usize) {
        self.read_at = place(self.storage.len(), self.read_at, count);
        self.length -= count;
    }

    /// Writes `items` to the spare places from `offset` on, counted from the queue's end, as far as these reach, and
    /// answers how many were written. The queue stays as it was.
    pub fn write_unallocated(&mut self, offset: usize, items: &[T]) -> usize {
        let window = self.storage.len() - self.length;
        if window <= offset {
            return 0;
        }
        let count = items.len().min(window - offset);
        write_cells(&mut self.storage, self.read_at, self.length + offset, &items[..count]);
        count
    }

    /// The first `count` spare places, of which there are so many, join the queue with what stands in them. The offsets
    /// of the others fall by `count`.
    pub fn enqueue_unallocated(&mut self, count: usize) {
        self.length += count;
    }

    // Appends one item.
    #[inline(always)]
    pub(crate) fn enqueue_item(&mut self, item: T) {
        let at = place(self.storage.len(), self.read_at, self.length);
        self.storage[at] = item;
        self.length += 1;
    }

    // The first item of a queue that is not empty.
    pub(crate) fn front(&self) -> T {
        self.storage[place(self.storage.len(), self.read_at, 0)]
    }

    // An empty queue starts anew at the slice's first place, so that its items stand in one piece.
    fn restart_if_empty(&mut self) {
        if self.length == 0 {
            self.read_at = 0;
        }
    }

    // Appends `items`, which fit.
    fn write_behind(&mut self, items: &[T]) {
        write_cells(&mut self.storage, self.read_at, self.length, items);
        self.length += items.len();
    }
}

// The place `offset` places on from `at`, around the end.
pub(crate) fn place(capacity: usize, at: usize, offset: usize) -> usize {
    let run = capacity - at;
    if offset < run { at + offset } else { offset - run }
}

// Writes `items` over the places from `offset` on, counted from `at`.
fn write_cells<T: Copy>(places: &mut [T], at: usize, offset: usize, items: &[T]) {
    let from = place(places.len(), at, offset);
    let run = places.len() - from;
    if items.len() <= run {
        places[from..from + items.len()].copy_from_slice(items);
    } else {
        let (front, back) = items.split_at(run);
        places[from..].copy_from_slice(front);
        places[..back.len()].copy_from_slice(back);
    }
}

// Copies the places from `offset` on, counted from `at`, into `out`.
fn read_cells<T: Copy>(places: &[T], at: usize, offset: usize, out: &mut [T]) {
    let from = place(places.len(), at, offset);
    let run = places.len() - from;
    let count = out.len();
    if count <= run {
        out.copy_from_slice(&places[from..from + count]);
    } else {
        let (front, back) = out.split_at_mut(run);
        front.copy_from_slice(&places[from..]);
        back.copy_from_slice(&places[..count - run]);
    }
}

// Lends `count` places from `from` on.
pub(crate) fn lend<T, R, F: FnOnce(&mut [T]) -> (usize, R)>(
    places: &mut [T],
    from: usize,
    count: usize,
    f: F,
) -> (usize, R) {
    f(&mut places[from..from + count])
}

// Lends all of `places` for reading.
fn show<T, R, F: FnOnce(&[T]) -> (usize, R)>(places: &[T], f: F) -> (usize, R) {
    f(places)
}
