// Made from crates/net_host/src/opening.rt by rust/translate: change it there.
//! A connection is opened from an interface: from one of its addresses, and from a port that is free.

use crate::kit::Vec;
use crate::proved::host_context::Words;
use crate::proved::net_host::environment::Environment;
use crate::proved::net_host::filed::Filed;
use crate::proved::net_host::interface::Interface;
use crate::proved::net_host::ports::{connection, free_port};
use crate::proved::net_host::set::SocketSet;
use crate::proved::net_host::slot::{Slot, SocketHandle};
use crate::sockets::sock_tcp::TsvalSource;
use crate::sockets::tcp::ConnectError;
use crate::sockets::wire::{IpAddress, IpEndpoint, IpListenEndpoint};
use crate::sockets::{Context, Socket};

/// Why a connection is not opened.
#[derive(Debug, Clone, Copy, PartialEq, Eq)]
pub enum OpenError {
    /// The local address is none of the interface, no address of the interface leads there, or an endpoint lacks an
    /// address or a port.
    Unaddressable,
    /// Another socket has this connection, or each port of 49152 and more is taken toward this peer.
    InUse,
    /// No TCP socket has the handle.
    NoSocket,
    /// The socket is open.
    InvalidState,
}

fn refused(error: ConnectError) -> OpenError {
    match error {
        ConnectError::InvalidState => OpenError::InvalidState,
        ConnectError::Unaddressable => OpenError::Unaddressable,
    }
}

fn open_answer(answer: Result<(), ConnectError>, local: IpEndpoint) -> Result<IpEndpoint, OpenError> {
    match answer {
        Ok(()) => Ok(local),
        Err(error) => Err(refused(error)),
    }
}

impl<'a, G: TsvalSource> Slot<'a, G> {
    fn open<C: Context>(
        &mut self,
        cx: &mut C,
        remote: IpEndpoint,
        local: IpEndpoint,
    ) -> Result<IpEndpoint, OpenError> {
        match &mut self.socket {
            Some(Socket::Tcp(tcp)) => {
                let from = IpListenEndpoint { addr: Some(local.addr), port: local.port };
                let answer = tcp.connect(cx, remote, from);
                open_answer(answer, local)
            }
            _ => Err(OpenError::NoSocket),
        }
    }
}

fn open_there<C: Context, G: TsvalSource>(
    slots: &mut Vec<Slot<'_, G>>,
    i: usize,
    cx: &mut C,
    remote: IpEndpoint,
    local: IpEndpoint,
) -> Result<IpEndpoint, OpenError> {
    slots[i].open(cx, remote, local)
}

impl<'a, G: TsvalSource> Filed<Slot<'a, G>> {
    // Whether a TCP socket has the handle.
    fn has_tcp(&self, handle: SocketHandle) -> bool {
        matches!(self.get(handle), Some(Socket::Tcp(_)))
    }

    fn open<C: Context>(
        &mut self,
        handle: SocketHandle,
        cx: &mut C,
        remote: IpEndpoint,
        local: IpEndpoint,
    ) -> Result<IpEndpoint, OpenError> {
        if !self.has_tcp(handle) {
            return Err(OpenError::NoSocket);
        }
        self.lend_out(handle.index);
        open_there(&mut self.slots, handle.index, cx, remote, local)
    }
}

// The port, where no socket has the connection.
pub(crate) fn given_port(found: Option<usize>, port: u16) -> Option<u16> {
    match found {
        Some(_) => None,
        None => Some(port),
    }
}

fn given<G: TsvalSource>(
    slots: &[Slot<'_, G>],
    addr: IpAddress,
    port: u16,
    remote: &IpEndpoint,
) -> Option<u16> {
    given_port(connection(slots, &IpEndpoint { addr, port }, remote), port)
}

// The local port, where there is one: that which is asked for, or of 0 a free one.
fn find_port<G: TsvalSource>(
    slots: &[Slot<'_, G>],
    addr: IpAddress,
    port: u16,
    remote: &IpEndpoint,
    start: u16,
) -> Option<u16> {
    if port == 0 {
        return free_port(slots, addr, remote, start);
    }
    given(slots, addr, port, remote)
}

// A number for where the search for a port begins.
pub(crate) fn draw_start<C: Context>(cx: &mut C) -> u16 {
    (cx.rand_u32() % 65536) as u16
}

// From this address, and the port, where there is one.
fn open_from<C: Context, G: TsvalSource>(
    sockets: &mut SocketSet<'_, G>,
    handle: SocketHandle,
    cx: &mut C,
    addr: IpAddress,
    port: Option<u16>,
    remote: IpEndpoint,
) -> Result<IpEndpoint, OpenError> {
    match port {
        Some(port) => sockets.open(handle, cx, remote, IpEndpoint { addr, port }),
        None => Err(OpenError::InUse),
    }
}

// From this address.
fn open_by<C: Context, G: TsvalSource>(
    sockets: &mut SocketSet<'_, G>,
    handle: SocketHandle,
    cx: &mut C,
    addr: IpAddress,
    port: u16,
    remote: IpEndpoint,
) -> Result<IpEndpoint, OpenError> {
    let start = draw_start(cx);
    let port = find_port(&sockets.slots, addr, port, &remote, start);
    open_from(sockets, handle, cx, addr, port, remote)
}

impl Environment {
    // The address that is asked for, if it is one of these, else that from which packets go to the peer.
    fn local_address(&self, asked: Option<IpAddress>, dst: &IpAddress) -> Option<IpAddress> {
        match asked {
            None => self.source(dst),
            Some(addr) => {
                if self.has_ip_addr(&addr) {
                    Some(addr)
                } else {
                    None
                }
            }
        }
    }
}

impl<W: Words> Interface<W> {
    /// Opens a connection of a TCP socket of the set to `remote`, and returns its local endpoint: the local address
    /// given, which is one of the interface, else that from which packets go there; the local port given, or of 0 one
    /// that no socket has toward this peer, of 49152 to 65535, the first from a random one on (RFC 6056, section
    /// 3.3.1). Then as `connect` of the socket.
    ///
    /// It looks at each socket of the set, for a free port at each of the few ports that are tried.
    ///
    /// # Errors
    /// In this order: `Unaddressable` where the address is none of the interface, or there is none to send from;
    /// `InUse` where another socket has the connection, or all ports are taken; `NoSocket` where no TCP socket has the
    /// handle; `InvalidState` where it is open; `Unaddressable` as `connect` says. A refusal changes nothing, but may
    /// have drawn a random number.
    pub fn connect<G: TsvalSource>(
        &mut self,
        sockets: &mut SocketSet<'_, G>,
        handle: SocketHandle,
        remote: IpEndpoint,
        local: IpListenEndpoint,
    ) -> Result<IpEndpoint, OpenError> {
        match self.inner.environment.local_address(local.addr, &remote.addr) {
            Some(addr) => open_by(sockets, handle, &mut self.inner, addr, local.port, remote),
            None => Err(OpenError::Unaddressable),
        }
    }
}
