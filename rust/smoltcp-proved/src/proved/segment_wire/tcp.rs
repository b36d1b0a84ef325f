// Made from crates/segment_wire/src/tcp.rt by rust/translate: change it there.
//! TCP segments as bytes (RFC 9293, section 3.1).

use crate::proved::control_wire::source::{at_most_one, sum_holds};
use crate::proved::control_wire::{TcpControl, TcpRepr, TcpSeqNumber};
use crate::proved::ip_wire::octets::{be16_at, behind, put, word};
use crate::proved::ip_wire::sum::{pseudo_sum, sum_after_wide, sum_of_twenty_after};
use crate::proved::ip_wire::{ChecksumCapabilities, Error, IpAddress, IpRepr};
use crate::proved::segment_wire::options::{NO_OPTIONS, TcpOptions, be32_at, no_options, read_options};
use crate::proved::segment_wire::pseudo::pseudo_parts;
use crate::proved::segment_wire::write::{fill_checksum, header_sum, write_front};

/// Writes the segment into `buffer_len` bytes, between these two addresses.
///
/// The options stand in the order MSS, window scale, SACK permitted, SACK, timestamp, and END fills the header up to a
/// multiple of 4 bytes. They take 40 bytes at most. Of the flags FIN, SYN, RST, PSH and ACK alone are set; the urgent
/// pointer is 0. The checksum is 0 where it is not computed before sending.
pub fn emit(
    repr: &TcpRepr<'_>,
    buffer: &mut [u8],
    src_addr: &IpAddress,
    dst_addr: &IpAddress,
    caps: &ChecksumCapabilities,
) {
    put(buffer, repr.header_len(), repr.payload);
    emit_front(repr, buffer, src_addr, dst_addr, caps);
}

/// Writes the segment's header, with its options and its checksum, before a copy of its payload, which stands in
/// `buffer` already, behind `header_len` bytes. The bytes are then those of [`emit`]. So a new buffer need not be
/// filled first.
pub fn emit_front(
    repr: &TcpRepr<'_>,
    buffer: &mut [u8],
    src_addr: &IpAddress,
    dst_addr: &IpAddress,
    caps: &ChecksumCapabilities,
) {
    let header_len = repr.header_len();
    write_front(repr, header_len, buffer);
    if caps.tcp.tx() {
        let start = pseudo_sum(src_addr, dst_addr, 6, buffer.len());
        write_checksum(repr, header_len, start as u64, 0, buffer);
    }
}

/// Writes the segment's header, of so many bytes, as [`emit_front`], behind this IP header, which has the addresses.
pub(crate) fn emit_behind(
    ip: &IpRepr,
    repr: &TcpRepr<'_>,
    len: usize,
    buffer: &mut [u8],
    caps: &ChecksumCapabilities,
) {
    write_front(repr, len, buffer);
    if caps.tcp.tx() {
        let (start, swapped) = pseudo_parts(ip, buffer.len());
        write_checksum(repr, len, start, swapped, buffer);
    }
}

// Writes the checksum of a segment that has 0 in its place, behind a pseudo header of this sum, not folded.
fn write_checksum(repr: &TcpRepr<'_>, header_len: usize, start: u64, swapped: u64, buffer: &mut [u8]) {
    let front = start + header_sum(repr, header_len);
    fill_checksum(front, swapped, buffer);
}

/// The segment that the bytes spell, between these two addresses.
///
/// # Errors
/// An error unless the header has at least 20 bytes and no more than there are, no port is 0, one at most of FIN, SYN
/// and RST is set, the options are whole up to an END, as [`read_options`], and, where received checksums are tested,
/// the checksum verifies. PSH beside one of the three is not kept, nor are URG and its pointer, as smoltcp.
pub fn parse<'a>(
    bytes: &'a [u8],
    src_addr: &IpAddress,
    dst_addr: &IpAddress,
    caps: &ChecksumCapabilities,
) -> Result<TcpRepr<'a>, Error> {
    if !is_head(bytes) || (caps.tcp.rx() && !sum_holds(bytes, src_addr, dst_addr, 6)) {
        return Err(Error);
    }
    read(bytes)
}

/// The segment that the bytes spell behind this IP header, as [`parse`] between its addresses.
///
/// # Errors
/// As [`parse`] says.
pub fn parse_behind<'a>(
    ip: &IpRepr,
    bytes: &'a [u8],
    caps: &ChecksumCapabilities,
) -> Result<TcpRepr<'a>, Error> {
    if !is_head(bytes) || (caps.tcp.rx() && !sum_holds_behind(ip, bytes)) {
        return Err(Error);
    }
    read(bytes)
}

/// Reads the segment that the bytes spell behind this IP header, as [`parse_behind`], into `repr`. Whether there is
/// one: else `repr` has no meaning.
///
/// So a segment without options, as most, is written once, where it is wanted.
#[inline(always)]
pub fn parse_behind_into<'a>(
    repr: &mut TcpRepr<'a>,
    ip: &IpRepr,
    bytes: &'a [u8],
    caps: &ChecksumCapabilities,
) -> bool {
    if caps.tcp.rx() && !sum_holds_behind(ip, bytes) {
        return false;
    }
    if !is_head(bytes) {
        return false; // behind the sum, whose call would have what was read of the head put aside
    }
    fill(repr, bytes, &no_options());
    let octets = options_of(bytes);
    if octets.is_empty() {
        return true;
    }
    fill_options(repr, octets)
}

// Sets the fields of the options. Not inlined, so that a segment without any is read by short code.
#[inline(never)]
fn fill_options(repr: &mut TcpRepr<'_>, octets: &[u8]) -> bool {
    match read_options(octets) {
        Some(options) => {
            repr.window_scale = options.window_scale;
            repr.max_seg_size = options.max_seg_size;
            repr.sack_permitted = options.sack_permitted;
            let ranges = options.sack_ranges;
            repr.sack_ranges = ranges;
            repr.timestamp = options.timestamp;
            true
        }
        None => false,
    }
}

// Whether the checksum verifies.
fn sum_holds_behind(ip: &IpRepr, bytes: &[u8]) -> bool {
    let (start, swapped) = pseudo_parts(ip, bytes.len());
    sum_after_wide(start, swapped, bytes) == 0xffff
}

// The segment that the bytes spell, where its options are whole.
#[inline(always)]
fn read<'a>(bytes: &'a [u8]) -> Result<TcpRepr<'a>, Error> {
    match read_options(options_of(bytes)) {
        Some(options) => Ok(segment_at(bytes, &options)),
        None => Err(Error),
    }
}

/// Reads the segment that the bytes spell, as [`parse`], into `repr`. Whether there is one: else `repr` is as it was.
///
/// An answer that is handed up by value is copied at each return.
#[inline(always)]
pub fn parse_into<'a>(
    repr: &mut TcpRepr<'a>,
    bytes: &'a [u8],
    src_addr: &IpAddress,
    dst_addr: &IpAddress,
    caps: &ChecksumCapabilities,
) -> bool {
    if !is_head(bytes) || (caps.tcp.rx() && !verifies(bytes, src_addr, dst_addr)) {
        return false;
    }
    if options_of(bytes).is_empty() {
        fill(repr, bytes, &NO_OPTIONS);
        return true;
    }
    fill_whole(repr, bytes)
}

// Whether the checksum holds. Of a header alone, as of an acknowledgement, with no loop.
#[inline(always)]
fn verifies(bytes: &[u8], src_addr: &IpAddress, dst_addr: &IpAddress) -> bool {
    if bytes.len() == 20 {
        return sum_of_twenty_after(pseudo_sum(src_addr, dst_addr, 6, 20), bytes) == 0xffff;
    }
    sum_holds(bytes, src_addr, dst_addr, 6)
}

// Sets each field, where the options are whole. Not inlined, so that a segment without any is read by short code.
#[inline(never)]
fn fill_whole<'a>(repr: &mut TcpRepr<'a>, bytes: &'a [u8]) -> bool {
    match read_options(options_of(bytes)) {
        Some(options) => {
            fill(repr, bytes, &options);
            true
        }
        None => false,
    }
}

// Sets each field.
#[inline(always)]
fn fill<'a>(repr: &mut TcpRepr<'a>, bytes: &'a [u8], options: &TcpOptions) {
    let flags = bytes[13];
    repr.src_port = word(bytes[0], bytes[1]);
    repr.dst_port = word(bytes[2], bytes[3]);
    repr.control = control_of(flags);
    repr.seq_number = TcpSeqNumber(be32_at(bytes, 4));
    repr.ack_number = ack_of(flags, be32_at(bytes, 8));
    repr.window_len = word(bytes[14], bytes[15]);
    repr.window_scale = options.window_scale;
    repr.max_seg_size = options.max_seg_size;
    repr.sack_permitted = options.sack_permitted;
    repr.sack_ranges = options.sack_ranges;
    repr.timestamp = options.timestamp;
    repr.payload = behind(bytes, (bytes[12] / 16) as usize * 4);
}

fn is_head(bytes: &[u8]) -> bool {
    if bytes.len() < 20 {
        return false;
    }
    let header = (bytes[12] / 16) as usize * 4;
    20 <= header
        && header <= bytes.len()
        && be16_at(bytes, 0) != 0
        && be16_at(bytes, 2) != 0
        && at_most_one(bytes[13] % 8)
}

fn options_of(bytes: &[u8]) -> &[u8] {
    let header = (bytes[12] / 16) as usize * 4;
    &bytes[20..header]
}

fn segment_at<'a>(bytes: &'a [u8], options: &TcpOptions) -> TcpRepr<'a> {
    let flags = bytes[13];
    TcpRepr {
        src_port: word(bytes[0], bytes[1]),
        dst_port: word(bytes[2], bytes[3]),
        control: control_of(flags),
        seq_number: TcpSeqNumber(be32_at(bytes, 4)),
        ack_number: ack_of(flags, be32_at(bytes, 8)),
        window_len: word(bytes[14], bytes[15]),
        window_scale: options.window_scale,
        max_seg_size: options.max_seg_size,
        sack_permitted: options.sack_permitted,
        sack_ranges: options.sack_ranges,
        timestamp: options.timestamp,
        payload: behind(bytes, (bytes[12] / 16) as usize * 4),
    }
}

// The control of each number of the four low flags: it is read where it stands, with no jump by what a peer sends.
static CONTROLS: [TcpControl; 16] = [
    TcpControl::None,
    TcpControl::Fin,
    TcpControl::Syn,
    TcpControl::None,
    TcpControl::Rst,
    TcpControl::None,
    TcpControl::None,
    TcpControl::None,
    TcpControl::Psh,
    TcpControl::Fin,
    TcpControl::Syn,
    TcpControl::Psh,
    TcpControl::Rst,
    TcpControl::Psh,
    TcpControl::Psh,
    TcpControl::Psh,
];

fn control_of(flags: u8) -> TcpControl {
    CONTROLS[(flags % 16) as usize]
}

fn ack_of(flags: u8, number: u32) -> Option<TcpSeqNumber> {
    if flags / 16 % 2 == 1 { Some(TcpSeqNumber(number)) } else { None }
}
