// Made from crates/net_host/src/slot.rt by rust/translate: change it there.
//! One place of a set of sockets.

use crate::proved::net_host::guard::Guard;
use crate::sockets::sock_tcp::{Generator, TsvalSource};
use crate::sockets::{Socket, tcp};

/// Names a socket of a set. A socket that is put where another one was removed has another handle.
#[derive(Debug, Clone, Copy, PartialEq, Eq)]
pub struct SocketHandle {
    /// Its place in the set, below `capacity`.
    pub index: usize,
    /// One more than the number of sockets that were removed from this place before, modulo 2^64: a handle of zeros
    /// names no socket.
    pub generation: u64,
}

/// A place for a socket, and what the host remembers beside it.
pub struct Slot<'a, G = Generator> {
    // one more than the number of sockets that were removed from here
    pub(crate) generation: u64,
    pub(crate) socket: Option<Socket<'a, G>>,
    pub(crate) guard: Guard,
    // how many SYNs opened the socket that is here
    pub(crate) opened: u64,
}

impl<'a, G> Slot<'a, G> {
    /// A place with no socket.
    pub(crate) fn free() -> Slot<'a, G> {
        Slot { generation: 1, socket: None, guard: Guard::new(), opened: 0 }
    }

    /// Whether there is no socket.
    pub(crate) fn is_free(&self) -> bool {
        self.socket.is_none()
    }

    /// The handle of the socket that is here, at this place of its set.
    pub(crate) fn handle(&self, index: usize) -> Option<SocketHandle> {
        match &self.socket {
            Some(_) => Some(SocketHandle { index, generation: self.generation }),
            None => None,
        }
    }

    /// The socket that is here under this generation.
    pub(crate) fn held(&self, generation: u64) -> Option<&Socket<'a, G>> {
        if self.generation != generation {
            return None;
        }
        self.socket.as_ref()
    }

    /// How many SYNs opened the socket that is here under this generation.
    pub(crate) fn opened(&self, generation: u64) -> Option<u64> {
        match &self.socket {
            Some(_) if self.generation == generation => Some(self.opened),
            _ => None,
        }
    }
}

impl<'a, G: TsvalSource> Slot<'a, G> {
    /// Puts a socket here.
    pub(crate) fn fill(&mut self, index: usize, socket: Socket<'a, G>) -> SocketHandle {
        self.socket = Some(socket);
        self.guard = Guard::new();
        self.opened = 0;
        SocketHandle { index, generation: self.generation }
    }

    /// Calls a function with the socket that is here under this generation.
    pub(crate) fn with<R, F: FnOnce(&mut Socket<'a, G>) -> R>(&mut self, generation: u64, f: F) -> Option<R> {
        if self.generation != generation {
            return None;
        }
        match &mut self.socket {
            Some(socket) => Some(f(socket)),
            None => None,
        }
    }

    /// Calls a function with the TCP socket that is here under this generation.
    pub(crate) fn with_tcp<R, F: FnOnce(&mut tcp::Socket<'a, G>) -> R>(
        &mut self,
        generation: u64,
        f: F,
    ) -> Option<R> {
        if self.generation != generation {
            return None;
        }
        match &mut self.socket {
            Some(Socket::Tcp(tcp)) => Some(f(tcp)),
            _ => None,
        }
    }

    /// Takes the socket out that is here under this generation.
    pub(crate) fn take(&mut self, generation: u64) -> Option<Socket<'a, G>> {
        if self.generation != generation {
            return None;
        }
        let socket = self.socket.take()?;
        self.generation = self.generation.wrapping_add(1);
        Some(socket)
    }
}
