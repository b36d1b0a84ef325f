// Made from crates/net_host/src/unsent.rt by rust/translate: change it there.
//! A socket dispatches into nothing what its host has sent for it.

use crate::kit::Vec;
use crate::proved::net_host::set::SocketSet;
use crate::proved::net_host::slot::Slot;
use crate::proved::net_host::wire::TooShort;
use crate::sockets::sock_tcp::TsvalSource;
use crate::sockets::wire::{IpRepr, TcpRepr};
use crate::sockets::{Context, Socket, tcp};

// The socket's own dispatch, whose emit does nothing.
fn swallow<C: Context, G: TsvalSource>(socket: &mut tcp::Socket<'_, G>, cx: &mut C) -> Result<(), TooShort> {
    socket.dispatch(cx, move |cx: &mut C, _sent: (IpRepr, TcpRepr<'_>)| -> Result<(), TooShort> { Ok(()) })
}

impl<'a, G: TsvalSource> Slot<'a, G> {
    fn pass<C: Context>(&mut self, cx: &mut C) -> Result<(), TooShort> {
        match &mut self.socket {
            Some(Socket::Tcp(tcp)) => swallow(tcp, cx),
            _ => Ok(()),
        }
    }
}

fn pass_there<C: Context, G: TsvalSource>(
    slots: &mut Vec<Slot<'_, G>>,
    i: usize,
    cx: &mut C,
) -> Result<(), TooShort> {
    slots[i].pass(cx)
}

/// The TCP socket at this place dispatches into nothing.
pub(crate) fn pass_at<C: Context, G: TsvalSource>(
    sockets: &mut SocketSet<'_, G>,
    i: usize,
    cx: &mut C,
) -> Result<(), TooShort> {
    sockets.lend(i);
    pass_there(&mut sockets.slots, i, cx)
}
