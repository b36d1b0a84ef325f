//! Vectors without a heap: each stands in its place, and has room for a number of items that the build fixes.
use crate::config::{IFACE_MAX_ADDR_COUNT, IFACE_MAX_MTU, IFACE_MAX_SOCKET_COUNT};
use crate::kit::alloc::{AllocError, AllocFailed, Global};
use crate::proved::net_host::IpCidr;
use crate::proved::net_host::slot::Slot;
use core::fmt;
use core::marker::PhantomData;
use core::ops::{Deref, DerefMut};

/// Of how many keys an index knows where they stood last.
pub(crate) const KNOWN: usize = 2 * IFACE_MAX_SOCKET_COUNT;

/// What a vector holds: items that a build has a number of places for.
pub trait Kept: Sized {
    /// The places of all items.
    type Room: Room<Self>;
}

/// Places of items, and what stands where no item does.
pub trait Room<T>: AsRef<[T]> + AsMut<[T]> {
    /// Places without an item.
    fn room() -> Self;
}

macro_rules! kept {
    ($($item:ty, $most:expr;)*) => { $(
        impl Kept for $item {
            type Room = [$item; $most];
        }

        impl<const MOST: usize> Room<$item> for [$item; MOST] {
            fn room() -> Self {
                [0; MOST]
            }
        }
    )* };
}

// What the columns of a set of sockets have; the order of its keys has two for each.
kept! {
    u8, IFACE_MAX_MTU;
    u16, IFACE_MAX_SOCKET_COUNT;
    u32, 2 * IFACE_MAX_SOCKET_COUNT;
    u64, IFACE_MAX_SOCKET_COUNT;
    u128, IFACE_MAX_SOCKET_COUNT;
    i64, IFACE_MAX_SOCKET_COUNT;
}

/// Words of marks, one for 64 sockets and one behind them.
pub type Words = Vec<u64, [u64; IFACE_MAX_SOCKET_COUNT / 64 + 1]>;

/// Bounds of blocks, one for 16 sockets.
pub type Blocks = Vec<i64, [i64; IFACE_MAX_SOCKET_COUNT.div_ceil(16)]>;

/// These bounds, which are of blocks.
pub(crate) fn of_blocks(bounds: Result<Vec<i64>, AllocError>) -> Result<Blocks, AllocError> {
    Vec::from_slice(Global, &bounds?)
}

impl<'a, G> Kept for Slot<'a, G> {
    type Room = [Slot<'a, G>; IFACE_MAX_SOCKET_COUNT];
}

impl<'a, G> Room<Slot<'a, G>> for [Slot<'a, G>; IFACE_MAX_SOCKET_COUNT] {
    fn room() -> Self {
        core::array::from_fn(|_| Slot::free())
    }
}

/// How many addresses an interface has at most, with those that it answers for by a route.
const ADDRESSES: usize = IFACE_MAX_ADDR_COUNT + crate::iface::FOREIGN;

impl Kept for IpCidr {
    type Room = [Self; ADDRESSES];
}

impl Room<IpCidr> for [IpCidr; ADDRESSES] {
    fn room() -> Self {
        let nothing = core::net::Ipv4Addr::UNSPECIFIED.into();
        [IpCidr { address: nothing, prefix_len: 0 }; ADDRESSES]
    }
}

// An outbox of packets has one without a heap.
impl Kept for Vec<u8> {
    type Room = [Vec<u8>; 1];
}

impl Room<Vec<u8>> for [Vec<u8>; 1] {
    fn room() -> Self {
        [Vec::new(Global)]
    }
}

/// A vector in its place: each call that finds no room says so, and then changes nothing.
pub struct Vec<T: Kept, R = <T as Kept>::Room> {
    room: R,
    len: usize,
    items: PhantomData<T>,
}

impl<T: Kept + fmt::Debug, R: Room<T>> fmt::Debug for Vec<T, R> {
    fn fmt(&self, f: &mut fmt::Formatter<'_>) -> fmt::Result {
        fmt::Debug::fmt(self.as_slice(), f)
    }
}

impl<T: Kept, R: Room<T>> Vec<T, R> {
    /// A vector without items.
    pub fn new(_: Global) -> Vec<T, R> {
        Vec { room: R::room(), len: 0, items: PhantomData }
    }

    /// A vector without items that has room for so many.
    pub fn with_capacity(alloc: Global, count: usize) -> Result<Vec<T, R>, AllocError> {
        let vector = Vec::new(alloc);
        if count > vector.capacity() { Err(AllocError) } else { Ok(vector) }
    }

    /// Puts an item behind the others.
    pub fn push(&mut self, item: T) -> Result<(), AllocFailed<T>> {
        match self.room.as_mut().get_mut(self.len) {
            Some(place) => {
                *place = item;
                self.len += 1;
                Ok(())
            }
            None => Err(AllocFailed { value: item }),
        }
    }

    /// Puts an item behind the others, where there is room for it.
    pub fn push_reserved(&mut self, item: T) {
        self.room.as_mut()[self.len] = item;
        self.len += 1;
    }

    /// Takes out all items but the first so many, which stay in their places until others come.
    pub fn truncate(&mut self, count: usize) {
        self.len = self.len.min(count);
    }

    /// Takes all items out.
    pub fn clear(&mut self) {
        self.len = 0;
    }

    /// How many items there is room for.
    pub fn capacity(&self) -> usize {
        self.room.as_ref().len()
    }

    /// The items.
    pub fn as_slice(&self) -> &[T] {
        &self.room.as_ref()[..self.len]
    }

    /// The items, to be written.
    pub fn as_mut_slice(&mut self) -> &mut [T] {
        &mut self.room.as_mut()[..self.len]
    }
}

impl<T: Kept + Clone, R: Room<T>> Vec<T, R> {
    /// One item so many times.
    pub fn filled(alloc: Global, item: T, count: usize) -> Result<Vec<T, R>, AllocError> {
        let mut vector: Vec<T, R> = Vec::with_capacity(alloc, count)?;
        vector.room.as_mut()[..count].fill(item);
        vector.len = count;
        Ok(vector)
    }

    /// A copy of these items.
    pub fn from_slice(alloc: Global, items: &[T]) -> Result<Vec<T, R>, AllocError> {
        let mut vector = Vec::new(alloc);
        vector.extend_from_slice(items)?;
        Ok(vector)
    }

    /// Puts a copy of these items behind the others.
    pub fn extend_from_slice(&mut self, items: &[T]) -> Result<(), AllocError> {
        let end = self.len + items.len();
        let room = self.room.as_mut().get_mut(self.len..end).ok_or(AllocError)?;
        room.clone_from_slice(items);
        self.len = end;
        Ok(())
    }
}

impl<T: Kept + Copy, R: Room<T>> Vec<T, R> {
    /// Puts an item before the one at this place.
    pub fn insert(&mut self, place: usize, item: T) -> Result<(), AllocFailed<T>> {
        if self.push(item).is_err() {
            return Err(AllocFailed { value: item });
        }
        let end = self.len - 1;
        self.room.as_mut().copy_within(place..end, place + 1);
        self.room.as_mut()[place] = item;
        Ok(())
    }

    /// Takes the item at this place out.
    pub fn remove(&mut self, place: usize) -> T {
        let item = self[place];
        self.room.as_mut().copy_within(place + 1..self.len, place);
        self.len -= 1;
        item
    }

    /// Has so many items: takes the last ones out, or puts copies of this one behind the others.
    pub fn resize(&mut self, count: usize, item: T) -> Result<(), AllocError> {
        if count > self.capacity() {
            return Err(AllocError);
        }
        let end = self.len.min(count);
        self.room.as_mut()[end..count].fill(item);
        self.len = count;
        Ok(())
    }
}

impl<T: Kept, R: Room<T>> Deref for Vec<T, R> {
    type Target = [T];

    #[inline(always)]
    fn deref(&self) -> &[T] {
        self.as_slice()
    }
}

impl<T: Kept, R: Room<T>> DerefMut for Vec<T, R> {
    #[inline(always)]
    fn deref_mut(&mut self) -> &mut [T] {
        self.as_mut_slice()
    }
}

#[cfg(test)]
mod tests {
    use super::*;
    use crate::iface::{SocketSet, SocketStorage};
    use crate::socket::{Socket, tcp};
    use crate::storage::RingBuffer;

    fn socket<'a>() -> tcp::Socket<'a> {
        let none = || RingBuffer::new([].as_mut_slice());
        tcp::Socket::new(none(), none())
    }

    #[test]
    fn a_full_vector_gives_the_item_back() {
        let mut vector: Vec<u32> = Vec::filled(Global, 7, 2 * IFACE_MAX_SOCKET_COUNT).expect("room for all");
        assert_eq!(vector.push(8), Err(AllocFailed { value: 8 }));
        assert_eq!(vector.remove(0), 7);
        assert_eq!((vector.insert(0, 9), vector[0], vector.len()), (Ok(()), 9, vector.capacity()));
        assert_eq!(vector.insert(0, 9), Err(AllocFailed { value: 9 }));
        assert!(Vec::<u32>::with_capacity(Global, vector.capacity() + 1).is_err());
    }

    #[test]
    fn sockets_come_and_go_in_a_set_without_a_heap() {
        let mut places = [SocketStorage::EMPTY; IFACE_MAX_SOCKET_COUNT];
        let mut sockets = SocketSet::new(&mut places[..]);
        for _ in 0..3 {
            let handles = [(); IFACE_MAX_SOCKET_COUNT].map(|()| sockets.add(socket()));
            assert_eq!(sockets.iter().count(), IFACE_MAX_SOCKET_COUNT);
            for handle in handles {
                sockets.get_mut::<tcp::Socket<'_>>(handle).listen(80).expect("a closed socket listens");
                assert!(matches!(sockets.remove(handle), Socket::Tcp(socket) if socket.is_listening()));
            }
        }
    }

    #[test]
    #[should_panic(expected = "full SocketSet")]
    fn a_set_has_as_many_sockets_as_places() {
        let mut places = [SocketStorage::EMPTY; 1];
        let mut sockets = SocketSet::new(&mut places[..]);
        sockets.add(socket());
        sockets.add(socket());
    }
}
