// Made from crates/net_host/src/speak.rt by rust/translate: change it there.
//! Who speaks next.

use crate::proved::host_context::Words;
use crate::proved::net_host::counters::Counters;
use crate::proved::net_host::environment::Environment;
use crate::proved::net_host::inner::InterfaceInner;
use crate::proved::net_host::lent_turns::{tell_if_over, turn_there};
use crate::proved::net_host::looking::next_due;
use crate::proved::net_host::set::SocketSet;
use crate::proved::net_host::slot::Slot;
use crate::proved::net_host::wire::{Sent, TooShort};
use crate::sockets::Socket;
use crate::sockets::sock_tcp::TsvalSource;
use crate::sockets::wire::IpAddress;

// The socket at this place has its turn: apart from `emit`, which mostly finds nobody to speak, so that it stays short.
#[inline(never)]
fn turn_at<G: TsvalSource>(
    sockets: &mut SocketSet<'_, G>,
    i: usize,
    environment: &Environment,
    out: &mut [u8],
) -> (Result<(), TooShort>, Sent) {
    sockets.lend(i);
    turn_there(&mut sockets.slots, i, environment, out)
}

// Whether a TCP socket is at this place.
fn is_tcp_at<G>(slots: &[Slot<'_, G>], i: usize) -> bool {
    match slots.get(i) {
        Some(slot) => matches!(&slot.socket, Some(Socket::Tcp(_))),
        None => false,
    }
}

/// The sockets that are due have their turns, from the place whose turn it is on, until one of them has written a
/// packet: its length, or 0 where none is due. Before each turn guards look at the sockets that may want to be asked.
/// A packet that is longer than the MTU, or that cannot be made, is dropped and counted. `TooShort` where the packet
/// does not fit; its socket offers it again.
pub(crate) fn speak<W: Words, G: TsvalSource>(
    sockets: &mut SocketSet<'_, G>,
    turn: &mut usize,
    counters: &mut Counters,
    cx: &InterfaceInner<W>,
    out: &mut [u8],
) -> Result<usize, TooShort> {
    speak_on(sockets, turn, counters, cx, out)
}

fn speak_on<W: Words, G: TsvalSource>(
    sockets: &mut SocketSet<'_, G>,
    turn: &mut usize,
    counters: &mut Counters,
    cx: &InterfaceInner<W>,
    out: &mut [u8],
) -> Result<usize, TooShort> {
    while let Some(i) = next_due(sockets, cx, *turn) {
        *turn = i + 1;
        let (answer, sent) = turn_at(sockets, i, &cx.environment, out);
        tell_if_over(sockets, i);
        if answer.is_err() {
            return Err(TooShort);
        }
        let len = sent.len;
        if len > 0 {
            return Ok(len);
        }
        let of_tcp = is_tcp_at(&sockets.slots, i);
        counters.count_lost(sent.lost, of_tcp);
    }
    Ok(0)
}
