// Made from crates/net_host/src/set.rt by rust/translate: change it there.
//! A set of sockets of all kinds.

use crate::kit::Vec;
use crate::kit::alloc::{AllocError, Global};
use crate::proved::host_bounds::{Bounds, Marks};
use crate::proved::host_index::Index;
use crate::proved::net_host::filed::Filed;
use crate::proved::net_host::slot::{Slot, SocketHandle};
use crate::sockets::sock_tcp::{Generator, TsvalSource};
use crate::sockets::{Socket, icmp, raw, tcp, udp};

/// Sockets of all kinds, each under a handle. As smoltcp's, but that its room is made once.
///
/// `G` is the type of a TCP socket's source of timestamps, and is left out.
pub type SocketSet<'a, G = Generator> = Filed<Slot<'a, G>>;

impl<'a, G: TsvalSource> Filed<Slot<'a, G>> {
    /// A set with room for so many sockets. Nothing is allocated afterwards. Its index, its marks and its bounds take
    /// 47 bytes a socket and a kilobyte beside.
    ///
    /// # Errors
    /// An error where there is no memory for it.
    pub fn new(alloc: Global, capacity: usize) -> Result<SocketSet<'a, G>, AllocError> {
        let mut slots = Vec::with_capacity(alloc, capacity)?;
        for _ in 0..capacity {
            slots.push(Slot::free())?;
        }
        let index = Index::new(alloc, capacity)?;
        let free = Marks::new(alloc, capacity)?;
        let mut ended = Marks::new(alloc, capacity)?;
        ended.clear();
        let bounds = Bounds::new(alloc, capacity)?;
        Ok(Filed::of_free(slots, index, free, ended, bounds))
    }

    /// Whether the socket of a segment is found by an index of addresses and ports, so that no packet costs a walk
    /// through the set: always in a set of at most 2^30 sockets.
    pub fn is_indexed(&self) -> bool {
        self.complete
    }

    /// How many sockets it has room for.
    pub fn capacity(&self) -> usize {
        self.slots.len()
    }

    /// The handle of the socket at this place, of as many as `capacity` says; none where no socket is there.
    pub fn handle_at(&self, index: usize) -> Option<SocketHandle> {
        match self.slots.get(index) {
            Some(slot) => slot.handle(index),
            None => None,
        }
    }

    /// Puts the socket into the first place that is free. Where none is, it is given back.
    ///
    /// # Errors
    /// The socket, where no place is free.
    pub fn add(&mut self, socket: Socket<'a, G>) -> Result<SocketHandle, Socket<'a, G>> {
        match self.first_free() {
            None => Err(socket),
            Some(index) => {
                self.lend_out(index);
                Ok(fill(&mut self.slots, index, socket))
            }
        }
    }

    // The first place that is free. The marks tell of each place but the one that was lent.
    fn first_free(&self) -> Option<usize> {
        let found = first_marked(&self.slots, &self.free);
        match self.lent {
            Some(place) => sooner(&self.slots, found, place),
            None => found,
        }
    }

    /// Takes the socket out; none where the set has no socket of this handle. Afterwards no socket has it.
    pub fn remove(&mut self, handle: SocketHandle) -> Option<Socket<'a, G>> {
        self.lend_out(handle.index);
        take_at(&mut self.slots, handle)
    }

    /// The socket of this handle.
    pub fn get(&self, handle: SocketHandle) -> Option<&Socket<'a, G>> {
        match self.slots.get(handle.index) {
            Some(slot) => slot.held(handle.generation),
            None => None,
        }
    }

    /// How many SYNs have opened the socket of a handle since it was added, modulo 2^64; `None` where the handle names
    /// none. Each is a connection of its own: where the number has grown, the one before is over.
    pub fn opened(&self, handle: SocketHandle) -> Option<u64> {
        match self.slots.get(handle.index) {
            Some(slot) => slot.opened(handle.generation),
            None => None,
        }
    }

    /// Calls a function with the socket of a handle, and answers what it answers; `None` where the handle names none.
    /// Each other socket is as it was, and this one keeps its handle and its guard.
    pub fn with<R, F: FnOnce(&mut Socket<'a, G>) -> R>(&mut self, handle: SocketHandle, f: F) -> Option<R> {
        self.lend_out(handle.index);
        with_at(&mut self.slots, handle, f)
    }

    /// Calls a function with the TCP socket of a handle, as `with`; `None` where the handle names none of this kind.
    pub fn with_tcp<R, F: FnOnce(&mut tcp::Socket<'a, G>) -> R>(
        &mut self,
        handle: SocketHandle,
        f: F,
    ) -> Option<R> {
        self.lend_out(handle.index);
        with_tcp_at(&mut self.slots, handle, f)
    }

    /// Borrows the socket of a handle for writing; `None` where the handle names none.
    pub fn get_mut(&mut self, handle: SocketHandle) -> Option<&mut Socket<'a, G>> {
        let slot = self.place_mut(handle.index)?;
        if slot.generation != handle.generation {
            return None;
        }
        slot.socket.as_mut()
    }
}

/// The sockets of one kind.
impl<'a, G: TsvalSource> Filed<Slot<'a, G>> {
    /// The TCP socket of this handle, lent with every call of it; none where the handle's socket is of another kind.
    pub fn tcp_mut(&mut self, handle: SocketHandle) -> Option<&mut tcp::Socket<'a, G>> {
        match self.get_mut(handle)? {
            Socket::Tcp(tcp) => Some(tcp),
            _ => None,
        }
    }

    /// Borrows a UDP socket for writing; `None` where the handle names none of this kind.
    pub fn udp_mut(&mut self, handle: SocketHandle) -> Option<&mut udp::Socket<'a>> {
        match self.get_mut(handle)? {
            Socket::Udp(udp) => Some(udp),
            _ => None,
        }
    }

    /// Borrows an ICMP socket for writing; `None` where the handle names none of this kind.
    pub fn icmp_mut(&mut self, handle: SocketHandle) -> Option<&mut icmp::Socket<'a>> {
        match self.get_mut(handle)? {
            Socket::Icmp(icmp) => Some(icmp),
            _ => None,
        }
    }

    /// Borrows a raw socket for writing; `None` where the handle names none of this kind.
    pub fn raw_mut(&mut self, handle: SocketHandle) -> Option<&mut raw::Socket<'a>> {
        match self.get_mut(handle)? {
            Socket::Raw(raw) => Some(raw),
            _ => None,
        }
    }
}

fn is_free_at<G>(slots: &[Slot<'_, G>], place: usize) -> bool {
    match slots.get(place) {
        Some(slot) => slot.is_free(),
        None => false,
    }
}

// The first place that is free, of those that are marked.
fn first_marked<G>(slots: &[Slot<'_, G>], free: &Marks) -> Option<usize> {
    let mut place = free.next(0);
    while place < slots.len() {
        if is_free_at(slots, place) {
            return Some(place);
        }
        place = free.next(place + 1);
    }
    None
}

// This place, where it is free and before the one that was found among the others.
fn sooner<G>(slots: &[Slot<'_, G>], found: Option<usize>, place: usize) -> Option<usize> {
    if !is_free_at(slots, place) {
        return found;
    }
    match found {
        Some(i) => Some(i.min(place)),
        None => Some(place),
    }
}

fn fill<'a, G: TsvalSource>(
    slots: &mut Vec<Slot<'a, G>>,
    index: usize,
    socket: Socket<'a, G>,
) -> SocketHandle {
    slots[index].fill(index, socket)
}

fn with_at<'a, G: TsvalSource, R, F: FnOnce(&mut Socket<'a, G>) -> R>(
    slots: &mut Vec<Slot<'a, G>>,
    handle: SocketHandle,
    f: F,
) -> Option<R> {
    if slots.len() <= handle.index {
        return None;
    }
    slots[handle.index].with(handle.generation, f)
}

fn with_tcp_at<'a, G: TsvalSource, R, F: FnOnce(&mut tcp::Socket<'a, G>) -> R>(
    slots: &mut Vec<Slot<'a, G>>,
    handle: SocketHandle,
    f: F,
) -> Option<R> {
    if slots.len() <= handle.index {
        return None;
    }
    slots[handle.index].with_tcp(handle.generation, f)
}

fn take_at<'a, G: TsvalSource>(slots: &mut Vec<Slot<'a, G>>, handle: SocketHandle) -> Option<Socket<'a, G>> {
    if slots.len() <= handle.index {
        return None;
    }
    slots[handle.index].take(handle.generation)
}
