//! Calls of buffers as smoltcp has them, beside the proved ones: items one by one, and bytes that are lent for writing.
//! By hand, and not proved.
use crate::proved::net_base::packet_buffer::{Empty, Full};
use crate::proved::net_base::{PacketBuffer, RingBuffer};
use core::fmt;

/// What a ring's places hold and can be made anew.
pub trait Resettable {
    /// Makes it anew.
    fn reset(&mut self);
}

macro_rules! refusals {
    ($($name:ident $text:literal;)*) => { $(
        impl fmt::Display for $name {
            fn fmt(&self, f: &mut fmt::Formatter<'_>) -> fmt::Result {
                f.write_str($text)
            }
        }

        impl core::error::Error for $name {}
    )* };
}

refusals! {
    Full "Full";
    Empty "Empty";
}

// How many items may lie in one piece from a place on, of so many.
fn run(places: usize, at: usize, count: usize) -> usize {
    count.min(places - at)
}

impl<'a, T> RingBuffer<'a, T> {
    fn places(&self) -> usize {
        self.storage.len()
    }

    // The place so many behind the first item.
    fn place(&self, offset: usize) -> usize {
        let places = self.places();
        if places == 0 { 0 } else { (self.read_at + offset) % places }
    }

    fn room(&self) -> usize {
        self.places() - self.length
    }

    /// How many spare places lie behind the queue in one piece.
    pub fn contiguous_window(&self) -> usize {
        run(self.places(), self.place(self.length), self.room())
    }

    /// Empties the queue, and makes the item of each place anew.
    pub fn reset(&mut self)
    where
        T: Resettable,
    {
        (self.read_at, self.length) = (0, 0);
        self.storage.iter_mut().for_each(Resettable::reset);
    }

    /// Lends `f` the first spare place, which joins the queue where `f` answers `Ok`.
    ///
    /// # Errors
    /// Where no place is spare.
    pub fn enqueue_one_with<'b, R, E, F>(&'b mut self, f: F) -> Result<Result<R, E>, Full>
    where
        F: FnOnce(&'b mut T) -> Result<R, E>,
    {
        if self.room() == 0 {
            return Err(Full);
        }
        let at = self.place(self.length);
        let answer = f(&mut self.storage[at]);
        self.length += usize::from(answer.is_ok());
        Ok(answer)
    }

    /// The first spare place joins the queue, and is lent.
    ///
    /// # Errors
    /// Where no place is spare.
    pub fn enqueue_one(&mut self) -> Result<&mut T, Full> {
        self.enqueue_one_with(Ok)?.map_err(|never: core::convert::Infallible| match never {})
    }

    /// Lends `f` the first item, which leaves the queue where `f` answers `Ok`.
    ///
    /// # Errors
    /// Where there is none.
    pub fn dequeue_one_with<'b, R, E, F>(&'b mut self, f: F) -> Result<Result<R, E>, Empty>
    where
        F: FnOnce(&'b mut T) -> Result<R, E>,
    {
        if self.length == 0 {
            return Err(Empty);
        }
        let (at, next) = (self.read_at, self.place(1));
        let answer = f(&mut self.storage[at]);
        if answer.is_ok() {
            (self.read_at, self.length) = (next, self.length - 1);
        }
        Ok(answer)
    }

    /// Takes the first item out of the queue, and lends it.
    ///
    /// # Errors
    /// Where there is none.
    pub fn dequeue_one(&mut self) -> Result<&mut T, Empty> {
        self.dequeue_one_with(Ok)?.map_err(|never: core::convert::Infallible| match never {})
    }

    /// Lends `f` the spare places behind the queue, up to the storage's end. `f` answers how many of them, from the
    /// first on, join the queue; that is answered, and what `f` answers beside. An empty queue begins anew at the
    /// first place.
    ///
    /// # Panics
    /// Where `f` answers more than it was lent.
    pub fn enqueue_many_with<'b, R, F>(&'b mut self, f: F) -> (usize, R)
    where
        F: FnOnce(&'b mut [T]) -> (usize, R),
    {
        if self.length == 0 {
            self.read_at = 0;
        }
        let (at, len) = (self.place(self.length), self.contiguous_window());
        let (count, answer) = f(&mut self.storage[at..at + len]);
        assert!(count <= len, "no more items join than were lent");
        self.length += count;
        (count, answer)
    }

    /// As many spare places as are asked for, or as lie in one piece, join the queue, and are lent.
    pub fn enqueue_many(&mut self, size: usize) -> &mut [T] {
        self.enqueue_many_with(|room| {
            let len = size.min(room.len());
            (len, &mut room[..len])
        })
        .1
    }

    /// Lends `f` the queue, up to the storage's end. `f` answers how many of the items, from the first on, leave it;
    /// that is answered, and what `f` answers beside.
    ///
    /// # Panics
    /// Where `f` answers more than it was lent.
    pub fn dequeue_many_with<'b, R, F>(&'b mut self, f: F) -> (usize, R)
    where
        F: FnOnce(&'b mut [T]) -> (usize, R),
    {
        let (places, at) = (self.places(), self.read_at);
        let len = run(places, at, self.length);
        let (count, answer) = f(&mut self.storage[at..at + len]);
        assert!(count <= len, "no more items leave than were lent");
        self.read_at = if at + count < places { at + count } else { 0 };
        self.length -= count;
        (count, answer)
    }

    /// As many items as are asked for, or as lie in one piece, leave the queue, and are lent.
    pub fn dequeue_many(&mut self, size: usize) -> &mut [T] {
        self.dequeue_many_with(|items| {
            let len = size.min(items.len());
            (len, &mut items[..len])
        })
        .1
    }

    /// The spare places from `offset` behind the queue on, up to the storage's end, but at most so many.
    pub fn get_unallocated(&mut self, offset: usize, size: usize) -> &mut [T] {
        if self.room() < offset {
            return &mut [];
        }
        let (places, at) = (self.places(), self.place(self.length + offset));
        let len = run(places, at, size.min(self.room() - offset));
        &mut self.storage[at..at + len]
    }
}

impl<'a, H: Copy> PacketBuffer<'a, H> {
    /// Lends `f` the header and the bytes of the first packet, which leaves where `f` answers `Ok`.
    ///
    /// # Errors
    /// Where there is none.
    pub fn dequeue_with<'c, R, E, F>(&'c mut self, f: F) -> Result<Result<R, E>, Empty>
    where
        F: FnOnce(&mut H, &'c mut [u8]) -> Result<R, E>,
    {
        let (mut header, size) = self.peek().map(|(header, bytes)| (*header, bytes.len()))?;
        let (at, places) = (self.start, self.payload.len());
        let answer = f(&mut header, &mut self.payload[at..at + size]);
        if answer.is_ok() {
            let rest = &mut self.metadata;
            (rest.read_at, rest.length) = (rest.place(1), rest.length - 1);
            self.start = if at + size < places { at + size } else { 0 };
            self.length -= size;
        }
        Ok(answer)
    }

    /// Takes the first packet, and lends its bytes.
    ///
    /// # Errors
    /// Where there is none.
    pub fn dequeue(&mut self) -> Result<(H, &mut [u8]), Empty> {
        self.dequeue_with(|header, bytes| Ok((*header, bytes)))?
            .map_err(|never: core::convert::Infallible| match never {})
    }
}

#[cfg(all(test, feature = "alloc"))]
mod tests {
    use super::*;
    use crate::proved::net_base::PacketMetadata;
    use alloc::vec;

    #[test]
    fn items_go_around_the_end() {
        let mut ring = RingBuffer::new(vec![0u8; 5]);
        assert_eq!(ring.enqueue_slice(b"abcd"), 4);
        assert_eq!(ring.dequeue_many(3), b"abc");
        assert_eq!((ring.contiguous_window(), ring.window()), (1, 4));
        *ring.enqueue_one().expect("room") = b'e';
        assert_eq!(ring.enqueue_many_with(|room| (2, room.copy_from_slice(b"fgh"))).0, 2);
        assert_eq!(ring.get_unallocated(0, 9), b"h");
        assert_eq!(ring.dequeue_one(), Ok(&mut b'd'));
        assert_eq!(ring.dequeue_one_with(|_| Err::<(), u8>(7)), Ok(Err(7)));
        let lent: &mut [u8] = ring.dequeue_many_with(|items| (items.len(), items)).1;
        assert_eq!(lent, b"e");
        assert_eq!(ring.dequeue_many(9), b"fg");
        assert_eq!(ring.dequeue_one(), Err(Empty));
        assert_eq!(ring.enqueue_many(9).len(), 5);
        assert_eq!(ring.enqueue_one(), Err(Full));
        let mut none: RingBuffer<'_, u8> = RingBuffer::new([].as_mut_slice());
        assert_eq!((none.contiguous_window(), none.dequeue_many(1).len()), (0, 0));
        assert_eq!(none.enqueue_one(), Err(Full));
    }

    #[test]
    fn packets_leave_where_the_call_says_so() {
        let mut buffer = PacketBuffer::new(vec![PacketMetadata::EMPTY; 3], vec![0; 8]);
        buffer.enqueue(3, 'a').expect("room").copy_from_slice(b"one");
        buffer.enqueue(3, 'b').expect("room").copy_from_slice(b"two");
        assert_eq!(buffer.dequeue_with(|_, bytes| Err::<(), usize>(bytes.len())), Ok(Err(3)));
        assert_eq!(buffer.dequeue(), Ok(('a', b"one".to_vec().as_mut_slice())));
        // does not fit before the storage's end
        buffer.enqueue(3, 'c').expect("room").copy_from_slice(b"six");
        assert_eq!(buffer.dequeue(), Ok(('b', b"two".to_vec().as_mut_slice())));
        assert_eq!(buffer.dequeue(), Ok(('c', b"six".to_vec().as_mut_slice())));
        assert_eq!(buffer.dequeue(), Err(Empty));
        assert_eq!(buffer.payload_bytes_count(), 0);
    }
}
