// Made from crates/drill_lines/src/forms.rt by rust/translate: change it there.
//! What a line asks for, by its form: an unknown first word, else a wrong number of words, else a bad word.

use crate::proved::drill_lines::fields::read_fields;
use crate::proved::drill_lines::names::Names;
use crate::proved::drill_lines::places::{endpoint, is_hex, listen_endpoint, octet, port, word32};
use crate::proved::drill_lines::request::{Bytes, Call, Counted, Expected, Optional, Place, Request, Which};
use crate::proved::drill_lines::room::{BYTES, PLACES, Queues, Room};
use crate::proved::drill_lines::shapes::Form;
use crate::proved::drill_lines::wrong::{Read, Wrong, counted, meant};
use crate::proved::ip_wire::{Checksum, IpProtocol, IpVersion};
use crate::proved::smoltcp_socket::icmp;
use crate::proved::smoltcp_socket::tcp::CongestionControl;
use crate::proved::sock_pair::script::ScriptError;
use crate::proved::sock_pair::script::lines::Line;
use crate::proved::sock_pair::script::values::{index, is_text, number, rules, switch};
use crate::proved::sock_pair::script::words::{five_words, one_word, split_word, three_words, two_words};

/// The largest moment, in milliseconds.
pub const MILLIS: u32 = 1_000_000_000;

// The largest number of bytes that a line names.
const SIZE: u32 = 1_048_576;

// The longest packet, in bytes.
const MTU: u32 = 65_535;

/// What a line asks for, or its fault.
pub fn request_of<'t>(names: &Names<'t>, line: &Line<'t>) -> Result<Request<'t>, ScriptError> {
    match Form::of_word(line.name) {
        None => Err(ScriptError::UnknownEvent { line: line.number }),
        Some(form) => request_of_form(names, form, line),
    }
}

// What a line of this form asks for, or its fault.
fn request_of_form<'t>(names: &Names<'t>, form: Form, line: &Line<'t>) -> Result<Request<'t>, ScriptError> {
    let number = line.number;
    match read(names, form, line.values) {
        Ok(request) => Ok(request),
        Err(Wrong::Number) => Err(ScriptError::WrongNumberOfWords { line: number }),
        Err(Wrong::Word) => Err(ScriptError::BadWord { line: number }),
    }
}

fn read<'t>(names: &Names<'t>, form: Form, values: &'t [u8]) -> Read<Request<'t>> {
    match form {
        Form::Example => Ok(Request::Example(counted(one_word(values))?)),
        Form::Clock => Ok(Request::Clock(meant(millis(counted(one_word(values))?))?)),
        Form::Word => Ok(Request::Word(meant(word32(counted(one_word(values))?))?)),
        Form::Tcp | Form::Udp | Form::Icmp | Form::Raw => room(names, form, values),
        Form::Line => Ok(Request::Line(behind_space(values))),
        Form::Deliver => deliver(names, values),
        Form::Expect => expect(names, values),
        _ => call(names, form, values),
    }
}

// The text behind the first space.
fn behind_space(values: &[u8]) -> &[u8] {
    match values.first() {
        Some(_) => &values[1..],
        None => values,
    }
}

// A moment, or a length of time, in milliseconds.
fn millis(word: &[u8]) -> Option<u32> {
    at_most(word, MILLIS)
}

fn at_most(word: &[u8], most: u32) -> Option<u32> {
    let number = number(word, most as usize)?;
    Some(number as u32)
}

// `tcp S RX TX`, and the lines of the other kinds
fn room<'t>(names: &Names<'_>, form: Form, values: &[u8]) -> Read<Request<'t>> {
    match form {
        Form::Tcp => {
            let (name, rx, tx) = counted(three_words(values))?;
            let (rx, tx) = (meant(number(rx, BYTES))?, meant(number(tx, BYTES))?);
            free(names, name, Room::Tcp { rx, tx })
        }
        Form::Udp => {
            let (name, a, b, c, d) = counted(five_words(values))?;
            let queues = meant(queues((a, b), (c, d)))?;
            free(names, name, Room::Udp(queues))
        }
        Form::Icmp => {
            let (name, a, b, c, d) = counted(five_words(values))?;
            let queues = meant(queues((a, b), (c, d)))?;
            free(names, name, Room::Icmp(queues))
        }
        _ => {
            let (name, first, second, places, size) = counted(five_words(values))?;
            let (version, protocol) = (meant(version(first))?, meant(protocol(second))?);
            let queues = meant(queues((places, size), (places, size)))?;
            free(names, name, Room::Raw(version, protocol, queues))
        }
    }
}

fn free<'t>(names: &Names<'_>, name: &[u8], room: Room) -> Read<Request<'t>> {
    if names.is_free(name) { Ok(Request::Make(room)) } else { Err(Wrong::Word) }
}

// `PLACES BYTES` of what comes, and of what goes
fn queues(rx: (&[u8], &[u8]), tx: (&[u8], &[u8])) -> Option<Queues> {
    Some(Queues {
        rx_places: number(rx.0, PLACES)?,
        rx_bytes: number(rx.1, BYTES)?,
        tx_places: number(tx.0, PLACES)?,
        tx_bytes: number(tx.1, BYTES)?,
    })
}

// `4`, `6`, or `-` for both
fn version(word: &[u8]) -> Option<Option<IpVersion>> {
    match word {
        b"4" => Some(Some(IpVersion::Ipv4)),
        b"6" => Some(Some(IpVersion::Ipv6)),
        b"-" => Some(None),
        _ => None,
    }
}

// A number of at most 255, or `-` for any
fn protocol(word: &[u8]) -> Option<Option<IpProtocol>> {
    if word == b"-".as_slice() {
        return Some(None);
    }
    let number = octet(word)?;
    Some(Some(IpProtocol::from(number)))
}

// `S last S`, or `S N S`
fn deliver<'t>(names: &Names<'_>, values: &[u8]) -> Read<Request<'t>> {
    let (from, which, to) = counted(three_words(values))?;
    let from = meant(names.place_of(from))?;
    let which = meant(which_of(which))?;
    let to = meant(names.place_of(to))?;
    Ok(Request::Deliver(from, which, to))
}

fn which_of(word: &[u8]) -> Option<Which> {
    if word == b"last".as_slice() {
        return Some(Which::Last);
    }
    let number = index(word)?;
    Some(Which::Number(number))
}

// `S STATE`, or `S poll MOMENT`
fn expect<'t>(names: &Names<'_>, values: &'t [u8]) -> Read<Request<'t>> {
    if let Some((name, state)) = two_words(values) {
        let place = meant(names.place_of(name))?;
        return Ok(Request::Expect(place, Expected::State(state)));
    }
    let (name, word, moment) = counted(three_words(values))?;
    let place = meant(names.place_of(name))?;
    if word == b"poll".as_slice() {
        Ok(Request::Expect(place, Expected::Poll(moment)))
    } else {
        Err(Wrong::Word)
    }
}

fn call<'t>(names: &Names<'_>, form: Form, values: &'t [u8]) -> Read<Request<'t>> {
    let (name, rest) = counted(split_word(values))?;
    let call = call_behind(form, rest)?;
    let place = meant(names.place_of(name))?;
    Ok(Request::Call(place, call))
}

// What stands behind the name of the socket.
fn call_behind(form: Form, rest: &[u8]) -> Read<Call<'_>> {
    match form {
        Form::Plain(plain) => nothing(rest, Call::Plain(plain)),
        Form::Switch(which) => {
            let on = meant(switch(counted(one_word(rest))?))?;
            Ok(Call::Switch(which, on))
        }
        Form::Counted(which) => {
            let count = meant(at_most(counted(one_word(rest))?, most(which)))?;
            Ok(Call::Counted(which, count))
        }
        Form::Optional(which) => {
            let number = meant(optional(which, counted(one_word(rest))?))?;
            Ok(Call::Optional(which, number))
        }
        Form::Bytes(which) => bytes(which, rest),
        Form::Take => Ok(Call::Take(read_fields(rest)?)),
        _ => other_call(form, rest),
    }
}

fn other_call(form: Form, rest: &[u8]) -> Read<Call<'_>> {
    match form {
        Form::Listen => Ok(Call::Listen(place(rest)?)),
        Form::Bind => Ok(Call::Bind(place(rest)?)),
        Form::Congestion => {
            let control = meant(congestion(counted(one_word(rest))?))?;
            Ok(Call::Congestion(control))
        }
        Form::Rules => {
            let rules = meant(rules(counted(one_word(rest))?))?;
            Ok(Call::Rules(rules))
        }
        Form::Checksums => {
            let checksum = meant(checksum(counted(one_word(rest))?))?;
            Ok(Call::Checksums(checksum))
        }
        _ => {
            let (here, peer) = counted(two_words(rest))?;
            Ok(Call::Ends(meant(endpoint(here))?, meant(endpoint(peer))?))
        }
    }
}

fn nothing<'t>(rest: &[u8], call: Call<'t>) -> Read<Call<'t>> {
    match split_word(rest) {
        None => Ok(call),
        Some(_) => Err(Wrong::Number),
    }
}

// The largest number of such a line.
fn most(which: Counted) -> u32 {
    match which {
        Counted::Connect => u32::MAX,
        Counted::Fill | Counted::Recv | Counted::Peek => SIZE,
        Counted::Dispatch | Counted::Fail | Counted::Gone | Counted::Poll => MILLIS,
        Counted::PathMtu => MTU,
    }
}

// `-` for none, or a number: of milliseconds, of hops from 1 to 255, or any.
fn optional(which: Optional, word: &[u8]) -> Option<Option<u32>> {
    if word == b"-".as_slice() {
        return Some(None);
    }
    let number = number_for(which, word)?;
    Some(Some(number))
}

fn number_for(which: Optional, word: &[u8]) -> Option<u32> {
    match which {
        Optional::Timeout | Optional::AckDelay | Optional::KeepAlive => millis(word),
        Optional::HopLimit => not_zero(at_most(word, 255)),
        Optional::Timestamps => word32(word),
    }
}

fn not_zero(number: Option<u32>) -> Option<u32> {
    match number {
        Some(0) | None => None,
        Some(number) => Some(number),
    }
}

// Nothing, or one word: of printable ASCII, or of hexadecimal digits.
fn bytes(which: Bytes, rest: &[u8]) -> Read<Call<'_>> {
    let Some((word, more)) = split_word(rest) else {
        return Ok(Call::Bytes(which, &[]));
    };
    if split_word(more).is_some() {
        return Err(Wrong::Number);
    }
    if is_written(which, word) { Ok(Call::Bytes(which, word)) } else { Err(Wrong::Word) }
}

fn is_written(which: Bytes, word: &[u8]) -> bool {
    match which {
        Bytes::Send | Bytes::Write => is_text(word),
        Bytes::SendHex => is_hex(word),
    }
}

// Nothing, or one word.
fn place(rest: &[u8]) -> Read<Place> {
    let Some((word, more)) = split_word(rest) else {
        return Ok(Place::Here);
    };
    if split_word(more).is_some() {
        return Err(Wrong::Number);
    }
    meant(place_of(word))
}

// A port, an endpoint, or what an ICMP socket is bound to: `ident:N`, `udp:WHERE`, `tcp:WHERE` or `unspecified`.
fn place_of(word: &[u8]) -> Option<Place> {
    if word == b"unspecified".as_slice() {
        return Some(Place::Messages(icmp::Endpoint::Unspecified));
    }
    if let Some(ident) = behind(word, b"ident:") {
        return Some(Place::Messages(icmp::Endpoint::Ident(port(ident)?)));
    }
    if let Some(at) = behind(word, b"udp:") {
        return Some(Place::Messages(icmp::Endpoint::Udp(listen_endpoint(at)?)));
    }
    if let Some(at) = behind(word, b"tcp:") {
        return Some(Place::Messages(icmp::Endpoint::Tcp(listen_endpoint(at)?)));
    }
    let at = listen_endpoint(word)?;
    Some(Place::At(at))
}

// What stands behind this beginning.
fn behind<'t>(word: &'t [u8], beginning: &[u8]) -> Option<&'t [u8]> {
    word.strip_prefix(beginning)
}

fn congestion(word: &[u8]) -> Option<CongestionControl> {
    match word {
        b"reno" => Some(CongestionControl::Reno),
        #[cfg(feature = "socket-tcp-cubic")]
        b"cubic" => Some(CongestionControl::Cubic),
        b"none" => Some(CongestionControl::None),
        _ => None,
    }
}

fn checksum(word: &[u8]) -> Option<Checksum> {
    match word {
        b"both" => Some(Checksum::Both),
        b"rx" => Some(Checksum::Rx),
        b"tx" => Some(Checksum::Tx),
        b"none" => Some(Checksum::None),
        _ => None,
    }
}
