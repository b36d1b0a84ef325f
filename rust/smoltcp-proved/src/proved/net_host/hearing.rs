// Made from crates/net_host/src/hearing.rt by rust/translate: change it there.
//! A segment arrives at a set of sockets.

use crate::proved::host_cookies::SynCookies;
use crate::proved::net_host::answered::hear_out_there;
use crate::proved::net_host::asked::Asked;
use crate::proved::net_host::cookies::{
    Course, Told, answer_at, class_if, course_of, opening_of, syn_before,
};
use crate::proved::net_host::crowding::{dropped_if, is_limited};
use crate::proved::net_host::filing::connection_key;
use crate::proved::net_host::limit::Limit;
use crate::proved::net_host::offers::own_of;
use crate::proved::net_host::replies::put_reply;
use crate::proved::net_host::segments::{Taker, hear_anew_at, hear_at, keep_within, take_segment, who_takes};
use crate::proved::net_host::set::SocketSet;
use crate::proved::net_host::slot::Slot;
use crate::proved::net_host::unsent::pass_at;
use crate::sockets::Context;
use crate::sockets::sock_tcp::{Reply, TsvalSource};
use crate::sockets::wire::{IpRepr, TcpRepr};

/// Who takes a segment, and what becomes of it.
#[derive(Debug, Clone, Copy, PartialEq, Eq)]
pub struct Heard {
    pub course: Course,
    pub taker: Taker,
    /// Who takes the SYN before an acknowledgement that may be believed.
    pub again: Taker,
    /// Whether it is dropped, as its source has too many connections.
    pub dropped: bool,
}

fn who_again<C: Context, G: TsvalSource>(
    sockets: &SocketSet<'_, G>,
    cx: &C,
    class: Option<u8>,
    ip: &IpRepr,
    repr: &TcpRepr<'_>,
    asked: &mut Asked,
) -> Taker {
    match class {
        Some(class) => who_opens(sockets, cx, class, ip, repr, asked),
        None => Taker::Nobody,
    }
}

// Who takes the SYN before it.
// Not inlined, as few segments come here.
#[inline(never)]
fn who_opens<C: Context, G: TsvalSource>(
    sockets: &SocketSet<'_, G>,
    cx: &C,
    class: u8,
    ip: &IpRepr,
    repr: &TcpRepr<'_>,
    asked: &mut Asked,
) -> Taker {
    let syn = syn_before(repr, class);
    who_takes(sockets, cx, ip, &syn, asked)
}

// The socket at this place hears the SYN, and draws this number. Its SYN|ACK has gone out: that it has told its window,
// and so takes what the peer sends right behind its acknowledgement, the socket learns by a dispatch into nothing.
fn open_with<C: Context, G: TsvalSource>(
    sockets: &mut SocketSet<'_, G>,
    i: usize,
    cx: &C,
    number: u32,
    ip: &IpRepr,
    syn: &TcpRepr<'_>,
) {
    let mut told = Told { cx, word: number };
    let mut answer = None;
    hear_at(sockets, i, &mut told, true, ip, syn, &mut answer);
    let _ = pass_at(sockets, i, &mut told);
}

// So too a socket in TIME-WAIT, which listens again first.
fn open_anew_with<C: Context, G: TsvalSource>(
    sockets: &mut SocketSet<'_, G>,
    i: usize,
    cx: &C,
    number: u32,
    ip: &IpRepr,
    syn: &TcpRepr<'_>,
) {
    let mut told = Told { cx, word: number };
    let mut answer = None;
    hear_anew_at(sockets, i, &mut told, ip, syn, &mut answer);
    let _ = pass_at(sockets, i, &mut told);
}

fn takes_there<C: Context, G: TsvalSource>(
    slots: &[Slot<'_, G>],
    i: usize,
    cx: &C,
    ip: &IpRepr,
    repr: &TcpRepr<'_>,
) -> bool {
    slots[i].takes_segment(cx, false, ip, repr)
}

// The socket at this place hears the segment, if it takes it.
fn hear_if<C: Context, G: TsvalSource>(
    sockets: &mut SocketSet<'_, G>,
    i: usize,
    cx: &mut C,
    ip: &IpRepr,
    repr: &TcpRepr<'_>,
) -> Option<Reply> {
    let mut reply = None;
    if takes_there(&sockets.slots, i, cx, ip, repr) {
        hear_at(sockets, i, cx, false, ip, repr, &mut reply);
    }
    reply
}

// The socket at this place hears the SYN before the segment, and then the segment.
fn hear_both<C: Context, G: TsvalSource>(
    sockets: &mut SocketSet<'_, G>,
    i: usize,
    cx: &mut C,
    class: u8,
    number: u32,
    ip: &IpRepr,
    repr: &TcpRepr<'_>,
) -> Option<Reply> {
    let syn = syn_before(repr, class);
    open_with(sockets, i, cx, number, ip, &syn);
    hear_if(sockets, i, cx, ip, repr)
}

// So too a socket in TIME-WAIT, which listens again first.
fn hear_both_anew<C: Context, G: TsvalSource>(
    sockets: &mut SocketSet<'_, G>,
    i: usize,
    cx: &mut C,
    class: u8,
    number: u32,
    ip: &IpRepr,
    repr: &TcpRepr<'_>,
) -> Option<Reply> {
    let syn = syn_before(repr, class);
    open_anew_with(sockets, i, cx, number, ip, &syn);
    hear_if(sockets, i, cx, ip, repr)
}

// An acknowledgement is believed.
// Not inlined, as few segments come here.
#[inline(never)]
fn believe<C: Context, G: TsvalSource>(
    sockets: &mut SocketSet<'_, G>,
    cx: &mut C,
    again: Taker,
    class: u8,
    number: u32,
    ip: &IpRepr,
    repr: &TcpRepr<'_>,
) -> Option<Reply> {
    match again {
        Taker::Listener(i) => hear_both(sockets, i, cx, class, number, ip, repr),
        Taker::Reused(i) => hear_both_anew(sockets, i, cx, class, number, ip, repr),
        _ => None,
    }
}

// The segment goes to its taker, is answered or believed; the reply is written where it is wanted, as
// `hear_at` does.
fn take_heard<C: Context, G: TsvalSource>(
    sockets: &mut SocketSet<'_, G>,
    cx: &mut C,
    heard: &Heard,
    ip: &IpRepr,
    repr: &TcpRepr<'_>,
    reply: &mut Option<Reply>,
) {
    match heard.course {
        Course::Plain | Course::Doubted => {
            take_segment(sockets, cx, heard.taker, ip, repr, reply);
        }
        Course::Answered(place, number) => {
            *reply = Some(answer_at(&sockets.slots, place, cx, number, ip, repr));
        }
        Course::Believed(class, number) => {
            let opening = opening_of(repr);
            *reply = believe(sockets, cx, heard.again, class, number, ip, &opening);
        }
        Course::Dropped => *reply = None,
    }
}

// Who takes the segment, and what becomes of it. Asked are at most the sockets that can take it or the SYN before it,
// and six.
fn heard_by<C: Context, G: TsvalSource>(
    sockets: &SocketSet<'_, G>,
    cx: &C,
    cookies: &Option<SynCookies>,
    most: usize,
    ip: &IpRepr,
    repr: &TcpRepr<'_>,
    asked: &mut Asked,
) -> Heard {
    let taker = who_takes(sockets, cx, ip, repr, asked);
    let class = class_if(cookies, taker, cx, repr);
    let again = who_again(sockets, cx, class, ip, repr, asked);
    let own = own_of(&sockets.slots, taker);
    let course = course_of(cookies, own, taker, again, cx, ip, repr);
    let dropped = is_limited(sockets, most, taker, course, ip, repr);
    Heard { course: dropped_if(dropped, course), taker, again, dropped }
}

/// The connection at this place, which takes the segment, hears it: the length of the packet that answers it, at the
/// beginning of `out`, or 0.
#[inline(always)]
pub(crate) fn hear_known<C: Context, G: TsvalSource>(
    sockets: &mut SocketSet<'_, G>,
    i: usize,
    cx: &mut C,
    limit: &mut Limit,
    ip: &IpRepr,
    repr: &TcpRepr<'_>,
    out: &mut [u8],
) -> usize {
    sockets.lend(i);
    hear_out_there(&mut sockets.slots, i, cx, limit, ip, repr, out)
}

/// A segment arrives, and who takes it is looked for: who took it, and the length of the packet that answers it, at the
/// beginning of `out`, or 0.
pub(crate) fn hear_sought<C: Context, G: TsvalSource>(
    sockets: &mut SocketSet<'_, G>,
    cx: &mut C,
    limit: &mut Limit,
    cookies: &Option<SynCookies>,
    most: usize,
    ip: &IpRepr,
    repr: &TcpRepr<'_>,
    out: &mut [u8],
) -> (Heard, usize) {
    let caps = cx.checksum_caps();
    let now = cx.now();
    sockets.settle_for(connection_key(&ip.src_addr(), repr.dst_port, repr.src_port));
    let mut asked = Asked::none();
    let heard = heard_by(sockets, cx, cookies, most, ip, repr, &mut asked);
    let mut reply = None;
    take_heard(sockets, cx, &heard, ip, repr, &mut reply);
    keep_within(limit, now, ip, &mut reply);
    let len = put_reply(&reply, out, &caps);
    (heard, len)
}
