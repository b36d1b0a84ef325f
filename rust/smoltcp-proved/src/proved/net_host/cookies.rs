// Made from crates/net_host/src/cookies.rt by rust/translate: change it there.
//! SYN cookies: a SYN is answered and no socket holds it, and who answers that is believed (RFC 4987, section 3.6).

use crate::proved::control_wire::TcpSeqNumber;
use crate::proved::host_cookies::cookies::{answers_are_recognised, class_in};
use crate::proved::host_cookies::offer::offers_come_back;
use crate::proved::host_cookies::{Call, SynCookies, class_of, mss_of};
use crate::proved::net_host::offers::{
    add_options, clock_at, clock_brought, own_at, sack_brought, scale_brought, told_by, told_to,
};
use crate::proved::net_host::rest::opens;
use crate::proved::net_host::segments::Taker;
use crate::proved::net_host::slot::Slot;
use crate::sockets::sock_tcp::{Reply, TsvalSource};
use crate::sockets::time::Instant;
use crate::sockets::wire::{
    ChecksumCapabilities, IpAddress, IpProtocol, IpRepr, Ipv4Address, Ipv6Address, TcpControl, TcpRepr,
};
use crate::sockets::{Context, Socket};

/// What becomes of a segment where SYNs may be answered without a socket.
#[derive(Debug, Clone, Copy, PartialEq, Eq)]
pub enum Course {
    /// What becomes of it where they are not.
    Plain,
    /// What becomes of an acknowledgement that no socket takes and that carries no valid cookie.
    Doubted,
    /// A SYN is answered with this number, and the listener at this place is kept.
    Answered(usize, u32),
    /// An acknowledgement of this number: the SYN before it, which told this class, goes to its taker, and then itself.
    Believed(u8, u32),
    /// Nothing, as its source has too many connections.
    Dropped,
}

/// A context whose next word is a number that was told.
pub struct Told<'c, C> {
    pub(crate) cx: &'c C,
    pub(crate) word: u32,
}

impl<'c, C: Context> Context for Told<'c, C> {
    fn now(&self) -> Instant {
        self.cx.now()
    }

    fn has_ip_addr(&self, addr: IpAddress) -> bool {
        self.cx.has_ip_addr(addr)
    }

    fn get_source_address(&self, dst: &IpAddress) -> Option<IpAddress> {
        self.cx.get_source_address(dst)
    }

    fn get_source_address_ipv4(&self, dst: &Ipv4Address) -> Option<Ipv4Address> {
        self.cx.get_source_address_ipv4(dst)
    }

    fn get_source_address_ipv6(&self, dst: &Ipv6Address) -> Ipv6Address {
        self.cx.get_source_address_ipv6(dst)
    }

    fn is_broadcast(&self, addr: &IpAddress) -> bool {
        self.cx.is_broadcast(addr)
    }

    fn ip_mtu(&self) -> usize {
        self.cx.ip_mtu()
    }

    fn checksum_caps(&self) -> ChecksumCapabilities {
        self.cx.checksum_caps()
    }

    fn rand_u32(&mut self) -> u32 {
        self.word
    }
}

fn call_of(ip: &IpRepr, repr: &TcpRepr<'_>, number: TcpSeqNumber) -> Call {
    Call {
        remote: ip.src_addr(),
        local: ip.dst_addr(),
        remote_port: repr.src_port,
        local_port: repr.dst_port,
        number: number.0,
    }
}

// What an acknowledgement that may answer a SYN|ACK acknowledges.
fn acked_by(repr: &TcpRepr<'_>) -> Option<TcpSeqNumber> {
    match repr.control {
        TcpControl::Syn | TcpControl::Rst => None,
        _ => repr.ack_number,
    }
}

/// The SYN before an acknowledgement, which told this class, with the options that its timestamp brings back.
pub(crate) fn syn_before(repr: &TcpRepr<'_>, class: u8) -> TcpRepr<'static> {
    let mut syn = TcpRepr::bare(repr.src_port, repr.dst_port);
    syn.control = TcpControl::Syn;
    syn.seq_number = repr.seq_number.minus(1);
    syn.window_len = repr.window_len;
    syn.max_seg_size = mss_of(class);
    syn.window_scale = scale_brought(repr.timestamp);
    syn.sack_permitted = sack_brought(repr.timestamp);
    syn.timestamp = clock_brought(repr.timestamp);
    syn
}

// The class of the SYN that this number answers.
fn class_told(
    cookies: &SynCookies,
    now: Instant,
    ip: &IpRepr,
    repr: &TcpRepr<'_>,
    number: TcpSeqNumber,
) -> Option<u8> {
    let call = call_of(ip, repr, repr.seq_number.minus(1));
    cookies.recognised(&call, told_by(repr.timestamp), number.0, now.micros)
}

fn doubted_by(cookies: &SynCookies, now: Instant, ip: &IpRepr, repr: &TcpRepr<'_>) -> Course {
    match acked_by(repr) {
        None => Course::Plain,
        Some(ack) => {
            let number = ack.minus(1);
            match class_told(cookies, now, ip, repr, number) {
                Some(class) => Course::Believed(class, number.0),
                None => Course::Doubted,
            }
        }
    }
}

/// The class that a segment tells that no socket takes, where it may acknowledge an answer and one is awaited.
pub(crate) fn class_if<C: Context>(
    cookies: &Option<SynCookies>,
    taker: Taker,
    cx: &C,
    repr: &TcpRepr<'_>,
) -> Option<u8> {
    match (cookies, taker) {
        (Some(cookies), Taker::Nobody) => class_awaited(cookies, cx.now(), repr),
        _ => None,
    }
}

fn class_awaited(cookies: &SynCookies, now: Instant, repr: &TcpRepr<'_>) -> Option<u8> {
    if !cookies.awaits(now.micros) {
        return None;
    }
    match acked_by(repr) {
        Some(ack) => Some(class_in(ack.minus(1).0)),
        None => None,
    }
}

fn is_anybody(taker: Taker) -> bool {
    !matches!(taker, Taker::Nobody)
}

// As long as an answer is awaited, and where the SYN before it is not for nobody: a stray segment to a port that nobody
// serves costs no test of its number.
fn tested(cookies: &SynCookies, again: Taker, now: Instant, ip: &IpRepr, repr: &TcpRepr<'_>) -> Course {
    if cookies.awaits(now.micros) && is_anybody(again) {
        doubted_by(cookies, now, ip, repr)
    } else {
        Course::Plain
    }
}

/// An answer that goes out is noted.
pub(crate) fn note_on(cookies: &mut Option<SynCookies>, course: Course, now: Instant) {
    if let Course::Answered(..) = course {
        note(cookies, now);
    }
}

fn note(cookies: &mut Option<SynCookies>, now: Instant) {
    if let Some(cookies) = cookies {
        cookies.note(now.micros);
    }
}

fn is_garbage(repr: &TcpRepr<'_>) -> bool {
    match repr.control {
        TcpControl::None => repr.payload.len() == 1,
        _ => false,
    }
}

/// An acknowledgement that is believed, as its socket hears it: without the octet that a keep-alive has.
pub(crate) fn opening_of<'p>(repr: &TcpRepr<'p>) -> TcpRepr<'p> {
    let mut opening = *repr;
    if is_garbage(repr) {
        opening.payload = &[];
    }
    opening
}

fn kept_or(
    cookies: &SynCookies,
    own: Option<u8>,
    place: usize,
    now: Instant,
    ip: &IpRepr,
    repr: &TcpRepr<'_>,
) -> Course {
    if cookies.kept_from() <= place && opens(repr) {
        let call = call_of(ip, repr, repr.seq_number);
        let class = class_of(repr.max_seg_size);
        let number = cookies.number(&call, class, told_to(own, repr), now.micros);
        Course::Answered(place, number)
    } else {
        Course::Plain
    }
}

fn course_under(
    cookies: &SynCookies,
    own: Option<u8>,
    taker: Taker,
    again: Taker,
    now: Instant,
    ip: &IpRepr,
    repr: &TcpRepr<'_>,
) -> Course {
    match taker {
        Taker::Listener(place) => kept_or(cookies, own, place, now, ip, repr),
        Taker::Nobody => tested(cookies, again, now, ip, repr),
        _ => Course::Plain,
    }
}

/// What becomes of a segment that this taker has, and the SYN before it this one. `own` is the taker's window scale
/// (`own_of`).
pub(crate) fn course_of<C: Context>(
    cookies: &Option<SynCookies>,
    own: Option<u8>,
    taker: Taker,
    again: Taker,
    cx: &C,
    ip: &IpRepr,
    repr: &TcpRepr<'_>,
) -> Course {
    match cookies {
        None => Course::Plain,
        Some(cookies) => course_under(cookies, own, taker, again, cx.now(), ip, repr),
    }
}

// ---- the answer

impl<G> Slot<'_, G> {
    fn room(&self) -> usize {
        match &self.socket {
            Some(Socket::Tcp(tcp)) => tcp.recv_capacity(),
            _ => 0,
        }
    }
}

// How many bytes the receive buffer of the socket at this place holds.
fn room_at<G>(slots: &[Slot<'_, G>], place: usize) -> usize {
    match slots.get(place) {
        Some(slot) => slot.room(),
        None => 0,
    }
}

// The size of a segment that the host may receive.
fn own_mss<C: Context>(cx: &C, own: &IpAddress) -> u16 {
    let mtu = cx.ip_mtu();
    match own {
        IpAddress::Ipv4(_) => (mtu - 40) as u16,
        IpAddress::Ipv6(_) => (mtu.max(576) - 60) as u16,
    }
}

fn plain_answer<C: Context>(
    cx: &C,
    room: usize,
    number: u32,
    ip: &IpRepr,
    repr: &TcpRepr<'_>,
) -> TcpRepr<'static> {
    let mut answer = TcpRepr::bare(repr.dst_port, repr.src_port);
    answer.control = TcpControl::Syn;
    answer.seq_number = TcpSeqNumber(number);
    answer.ack_number = Some(repr.seq_number.plus(1));
    answer.window_len = room.min(65535) as u16;
    answer.max_seg_size = Some(own_mss(cx, &ip.dst_addr()));
    answer
}

// The SYN|ACK that answers a SYN with this number, by a listener with this window scale and this clock.
fn answer_of<C: Context>(
    cx: &C,
    own: Option<u8>,
    clock: Option<u32>,
    room: usize,
    number: u32,
    ip: &IpRepr,
    repr: &TcpRepr<'_>,
) -> Reply {
    let mut answer = plain_answer(cx, room, number, ip, repr);
    add_options(own, clock, repr, &mut answer);
    let header = IpRepr::new(ip.dst_addr(), ip.src_addr(), IpProtocol::Tcp, answer.buffer_len(), 64);
    (header, answer)
}

/// The SYN|ACK of the listener at this place, with this number.
// Not inlined, as few segments come here.
#[inline(never)]
pub(crate) fn answer_at<C: Context, G: TsvalSource>(
    slots: &[Slot<'_, G>],
    place: usize,
    cx: &C,
    number: u32,
    ip: &IpRepr,
    repr: &TcpRepr<'_>,
) -> Reply {
    let own = own_at(slots, place);
    let clock = clock_at(slots, place);
    answer_of(cx, own, clock, room_at(slots, place), number, ip, repr)
}

/// Where no socket takes it, the acknowledgement of an answer is believed within 64 seconds: as of the class that the
/// SYN told, and of the number of the answer; and the SYN that the socket hears before it has the window scale, the
/// SACK permission and the timestamp that it offered, where the answer has a timestamp. None is believed once no answer
/// is awaited, 128 seconds after the last, nor where the SYN before it is for nobody.
pub fn answers_are_believed() {
    answers_are_recognised();
    offers_come_back();
}
