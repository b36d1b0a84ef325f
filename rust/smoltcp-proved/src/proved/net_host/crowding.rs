// Made from crates/net_host/src/crowding.rt by rust/translate: change it there.
//! How many connections a source has.

use crate::proved::host_index::{Entry, Index};
use crate::proved::net_host::cookies::Course;
use crate::proved::net_host::filing::number_of;
use crate::proved::net_host::rest::opens;
use crate::proved::net_host::segments::Taker;
use crate::proved::net_host::set::SocketSet;
use crate::sockets::sock_tcp::TsvalSource;
use crate::sockets::wire::{IpRepr, TcpRepr};

// How many addresses a prefix of 64 bits has.
const PREFIX: u128 = 0x1_0000_0000_0000_0000;

// The first address of a source, as a number.
fn first_of(number: u128) -> u128 {
    let prefix = number / PREFIX;
    if prefix == 0 { number } else { prefix * PREFIX }
}

// The last address of a source, as a number.
fn last_of(number: u128) -> u128 {
    let prefix = number / PREFIX;
    if prefix == 0 { number } else { prefix * PREFIX + 0xffff_ffff_ffff_ffff }
}

// Whether so many entries stand from one address to another: by a look at where the last of them would stand. So it
// costs no more where there are many.
fn stand_within(index: &Index, first: u128, last: u128, count: usize) -> bool {
    let key = Entry { major: first, minor: 0, place: 0 };
    let place = index.lower(key).saturating_add(count - 1);
    if place >= index.len() {
        return false;
    }
    index.get(place).major <= last
}

// Whether a source has so many connections. Where the index is not complete, it counts as one that has.
fn is_crowded<G: TsvalSource>(sockets: &SocketSet<'_, G>, most: usize, ip: &IpRepr) -> bool {
    let _count = sockets.slots.len(); // for its bound
    if most == 0 {
        return false;
    }
    if !sockets.complete {
        return true;
    }
    let number = number_of(&ip.src_addr());
    stand_within(&sockets.index, first_of(number), last_of(number), most)
}

fn is_new(taker: Taker) -> bool {
    matches!(taker, Taker::Listener(_) | Taker::Reused(_))
}

// Whether a connection begins, or is offered by a cookie.
fn begins(course: Course, taker: Taker, repr: &TcpRepr<'_>) -> bool {
    match course {
        Course::Plain => is_new(taker) && opens(repr),
        Course::Answered(..) | Course::Believed(..) => true,
        Course::Doubted | Course::Dropped => false,
    }
}

/// Whether a segment of this course is dropped, as its source has as many connections as are allowed, which is 0 where
/// any number is.
pub(crate) fn is_limited<G: TsvalSource>(
    sockets: &SocketSet<'_, G>,
    most: usize,
    taker: Taker,
    course: Course,
    ip: &IpRepr,
    repr: &TcpRepr<'_>,
) -> bool {
    if most == 0 || !begins(course, taker, repr) {
        return false;
    }
    is_crowded(sockets, most, ip)
}

/// The course, or that of a segment that is dropped.
pub(crate) fn dropped_if(dropped: bool, course: Course) -> Course {
    if dropped { Course::Dropped } else { course }
}
