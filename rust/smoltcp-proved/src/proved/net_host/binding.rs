// Made from crates/net_host/src/binding.rt by rust/translate: change it there.
//! A UDP socket is bound from an interface: to a port that is given, or to one that none has.

use crate::kit::Vec;
use crate::proved::host_context::Words;
use crate::proved::net_host::filed::Filed;
use crate::proved::net_host::interface::Interface;
use crate::proved::net_host::opening::{OpenError, draw_start, given_port};
use crate::proved::net_host::ports::{binding, free_binding};
use crate::proved::net_host::set::SocketSet;
use crate::proved::net_host::slot::{Slot, SocketHandle};
use crate::sockets::sock_tcp::TsvalSource;
use crate::sockets::udp::BindError;
use crate::sockets::wire::{IpAddress, IpListenEndpoint};
use crate::sockets::{Context, Socket};

fn bind_refused(error: BindError) -> OpenError {
    match error {
        BindError::InvalidState => OpenError::InvalidState,
        BindError::Unaddressable => OpenError::Unaddressable,
    }
}

fn bound_answer(answer: Result<(), BindError>, port: u16) -> Result<u16, OpenError> {
    match answer {
        Ok(()) => Ok(port),
        Err(error) => Err(bind_refused(error)),
    }
}

impl<'a, G: TsvalSource> Slot<'a, G> {
    fn bind(&mut self, addr: Option<IpAddress>, port: u16) -> Result<u16, OpenError> {
        match &mut self.socket {
            Some(Socket::Udp(udp)) => {
                let answer = udp.bind(IpListenEndpoint { addr, port });
                bound_answer(answer, port)
            }
            _ => Err(OpenError::NoSocket),
        }
    }
}

fn bind_there<G: TsvalSource>(
    slots: &mut Vec<Slot<'_, G>>,
    i: usize,
    addr: Option<IpAddress>,
    port: u16,
) -> Result<u16, OpenError> {
    slots[i].bind(addr, port)
}

impl<'a, G: TsvalSource> Filed<Slot<'a, G>> {
    // Whether a UDP socket has the handle.
    fn has_udp(&self, handle: SocketHandle) -> bool {
        matches!(self.get(handle), Some(Socket::Udp(_)))
    }

    fn bind(&mut self, handle: SocketHandle, addr: Option<IpAddress>, port: u16) -> Result<u16, OpenError> {
        if !self.has_udp(handle) {
            return Err(OpenError::NoSocket);
        }
        self.lend_out(handle.index);
        bind_there(&mut self.slots, handle.index, addr, port)
    }
}

fn given_free<G: TsvalSource>(slots: &[Slot<'_, G>], port: u16) -> Option<u16> {
    given_port(binding(slots, port), port)
}

// The port, where there is one: that which is asked for, or of 0 a free one.
fn find_binding<G: TsvalSource>(slots: &[Slot<'_, G>], port: u16, start: u16) -> Option<u16> {
    if port == 0 {
        return free_binding(slots, start);
    }
    given_free(slots, port)
}

// At the port, where there is one.
fn bind_from<G: TsvalSource>(
    sockets: &mut SocketSet<'_, G>,
    handle: SocketHandle,
    addr: Option<IpAddress>,
    port: Option<u16>,
) -> Result<u16, OpenError> {
    match port {
        Some(port) => sockets.bind(handle, addr, port),
        None => Err(OpenError::InUse),
    }
}

fn bind_by<C: Context, G: TsvalSource>(
    sockets: &mut SocketSet<'_, G>,
    handle: SocketHandle,
    cx: &mut C,
    endpoint: IpListenEndpoint,
) -> Result<u16, OpenError> {
    let start = draw_start(cx);
    let port = find_binding(&sockets.slots, endpoint.port, start);
    bind_from(sockets, handle, endpoint.addr, port)
}

impl<W: Words> Interface<W> {
    /// Binds a UDP socket of the set, and returns its port: the port given, or of 0 one that no UDP socket of the set
    /// is bound to, of 49152 to 65535, the first from a random one on (RFC 6056, section 3.3.1). Then as `bind` of the
    /// socket, at the address given, or at any.
    ///
    /// It looks at each socket of the set, for a free port at each of the few ports that are tried.
    ///
    /// # Errors
    /// In this order: `InUse` where another UDP socket of the set is bound to the port, at whichever address, or all
    /// ports are taken; `NoSocket` where no UDP socket has the handle; `InvalidState` where it is bound. A refusal
    /// changes nothing, but draws a random number.
    pub fn bind_udp<G: TsvalSource>(
        &mut self,
        sockets: &mut SocketSet<'_, G>,
        handle: SocketHandle,
        endpoint: IpListenEndpoint,
    ) -> Result<u16, OpenError> {
        bind_by(sockets, handle, &mut self.inner, endpoint)
    }
}
