//! Sockets under handles, by the proved set below.
use crate::kit::alloc::Global;
use crate::proved::net_host;
use crate::sockets::{AnySocket, Socket};
use core::fmt;
use core::marker::PhantomData;

/// A place for a socket. It holds nothing itself: how many there are tells a set how many sockets it may have.
#[derive(Debug, Clone, Copy, Default)]
pub struct SocketStorage<'a>(PhantomData<&'a ()>);

impl SocketStorage<'_> {
    /// A place.
    pub const EMPTY: Self = SocketStorage(PhantomData);
}

/// How many sockets a set may have: as many as the places that are lent, or, of a vector, any number.
#[derive(Debug, Clone, Copy)]
pub struct Places(Option<usize>);

#[cfg(feature = "alloc")]
impl<'a> From<alloc::vec::Vec<SocketStorage<'a>>> for Places {
    fn from(_: alloc::vec::Vec<SocketStorage<'a>>) -> Places {
        Places(None)
    }
}

impl<'s, 'a> From<&'s mut [SocketStorage<'a>]> for Places {
    fn from(places: &'s mut [SocketStorage<'a>]) -> Places {
        Places(Some(places.len()))
    }
}

impl<'a, const N: usize> From<[SocketStorage<'a>; N]> for Places {
    fn from(_: [SocketStorage<'a>; N]) -> Places {
        Places(Some(N))
    }
}

/// The name of a socket in a set.
#[derive(Debug, Clone, Copy, PartialEq, Eq, PartialOrd, Ord, Hash, Default)]
pub struct SocketHandle(usize);

impl fmt::Display for SocketHandle {
    fn fmt(&self, f: &mut fmt::Formatter<'_>) -> fmt::Result {
        write!(f, "#{}", self.0)
    }
}

/// Sockets of all kinds, each under a handle.
pub struct SocketSet<'a> {
    // a socket is added to the first place that is free, so that its place is its handle
    set: net_host::SocketSet<'a>,
    most: Option<usize>,
    // whether any socket may have changed since the set below looked
    all_lent: bool,
}

impl fmt::Debug for SocketSet<'_> {
    fn fmt(&self, f: &mut fmt::Formatter<'_>) -> fmt::Result {
        f.debug_map().entries(self.iter()).finish()
    }
}

/// The handle below of the socket at a place, if any.
pub(crate) fn handle_at(set: &net_host::SocketSet<'_>, place: usize) -> Option<net_host::SocketHandle> {
    set.slots.get(place)?.handle(place)
}

// The set below, of this capacity.
fn room_for<'a>(capacity: usize) -> net_host::SocketSet<'a> {
    net_host::SocketSet::new(Global, capacity).expect("memory for a set of sockets")
}

impl<'a> SocketSet<'a> {
    /// A set without sockets. Its memory is of the heap, whatever is lent; without the feature `alloc` the set has it
    /// in itself.
    ///
    /// # Panics
    /// Where more places are lent than there is memory for: without `alloc`, than
    /// [`IFACE_MAX_SOCKET_COUNT`](crate::config::IFACE_MAX_SOCKET_COUNT).
    pub fn new<P: Into<Places>>(sockets: P) -> SocketSet<'a> {
        let Places(most) = sockets.into();
        SocketSet { set: room_for(most.unwrap_or(0)), most, all_lent: false }
    }

    /// Adds a socket. Panics where the set has as many as it may.
    pub fn add<T: AnySocket<'a>>(&mut self, socket: T) -> SocketHandle {
        let mut socket = socket.upcast();
        loop {
            match self.set.add(socket) {
                Ok(handle) => return SocketHandle(handle.index),
                Err(back) => socket = back,
            }
            self.grow();
        }
    }

    // Twice as many places, or a few, with the sockets where they were: each place has one.
    fn grow(&mut self) {
        assert!(self.most.is_none(), "adding a socket to a full SocketSet");
        let capacity = (2 * self.set.capacity()).max(4);
        let mut old = core::mem::replace(&mut self.set, room_for(capacity));
        for place in 0..old.capacity() {
            let socket = handle_at(&old, place).and_then(|handle| old.remove(handle)).expect("a full set");
            let handle = self.set.add(socket).expect("the new set is larger");
            assert!(handle.index == place, "the first place that is free");
        }
    }

    // Each place may have changed: it is to be asked at once, and is filed as it is now before the next is lent.
    fn lend_all(&mut self) {
        for place in 0..self.set.capacity() {
            self.set.lend(place);
        }
    }

    /// The set below, for writing.
    pub(crate) fn set_mut(&mut self) -> &mut net_host::SocketSet<'a> {
        if core::mem::take(&mut self.all_lent) {
            self.lend_all();
        }
        &mut self.set
    }

    /// The set below.
    pub(crate) fn set(&self) -> &net_host::SocketSet<'a> {
        &self.set
    }

    fn below(&self, handle: SocketHandle) -> net_host::SocketHandle {
        handle_at(&self.set, handle.0).expect("handle does not refer to a valid socket")
    }

    /// The socket of this handle. Panics where the handle names none, or one of another kind.
    pub fn get<T: AnySocket<'a>>(&self, handle: SocketHandle) -> &T {
        let socket = self.set.get(self.below(handle)).expect("each handle has its socket");
        T::downcast(socket).expect("handle refers to a socket of a wrong type")
    }

    /// The socket of this handle, for writing. Panics where the handle names none, or one of another kind.
    pub fn get_mut<T: AnySocket<'a>>(&mut self, handle: SocketHandle) -> &mut T {
        let below = self.below(handle);
        let socket = self.set.get_mut(below).expect("each handle has its socket");
        T::downcast_mut(socket).expect("handle refers to a socket of a wrong type")
    }

    /// Takes a socket out. Panics where the handle names none.
    pub fn remove(&mut self, handle: SocketHandle) -> Socket<'a> {
        let below = self.below(handle);
        self.set.remove(below).expect("each handle has its socket")
    }

    /// The sockets with their handles.
    pub fn iter(&self) -> impl Iterator<Item = (SocketHandle, &Socket<'a>)> {
        (0..self.set.capacity()).filter_map(|place| {
            let socket = self.set.get(handle_at(&self.set, place)?)?;
            Some((SocketHandle(place), socket))
        })
    }

    /// The sockets with their handles, for writing. Before the next packet the set looks at each of them.
    pub fn iter_mut(&mut self) -> impl Iterator<Item = (SocketHandle, &mut Socket<'a>)> {
        self.lend_all();
        self.all_lent = true;
        let slots = self.set.slots.iter_mut().enumerate();
        slots.filter_map(|(place, slot)| Some((SocketHandle(place), slot.socket.as_mut()?)))
    }
}
