// Made from crates/segment_wire/src/write.rt by rust/translate: change it there.
//! The pieces of a TCP header, written one behind the other. `header_len` is how many bytes it takes with its options,
//! worked out once for all of them.

use crate::proved::control_wire::tcp::sack_count;
use crate::proved::control_wire::{TcpControl, TcpRepr, TcpSeqNumber, TcpTimestampRepr};
use crate::proved::ip_wire::octets::{be16, behind, put};
use crate::proved::ip_wire::sum::sum_after_wide;

/// Writes the segment's header, with a checksum of 0. What stands behind it stays.
pub fn write_front(repr: &TcpRepr<'_>, header_len: usize, buffer: &mut [u8]) {
    let (front, _behind) = buffer.split_at_mut(header_len);
    write_header(repr, header_len, front);
}

// Writes a header with a checksum of 0 into as many bytes as it has.
fn write_header(repr: &TcpRepr<'_>, header_len: usize, front: &mut [u8]) {
    options_count(repr);
    let at = append(front, 0, &header(repr, header_len));
    put_options(repr, header_len, front, at);
}

// Says that the options' bytes are as many as the header counts, which a proof does not see by itself.
fn options_count(repr: &TcpRepr<'_>) {}

fn header(repr: &TcpRepr<'_>, header_len: usize) -> [u8; 20] {
    let [a, b] = be16(repr.src_port as usize);
    let [c, d] = be16(repr.dst_port as usize);
    let [e, f, g, h] = be32(repr.seq_number.0);
    let [i, j, k, l] = be32(ack_field(repr.ack_number));
    let offset = (header_len / 4 * 16) as u8;
    let flags = control_bits(repr.control) + ack_bit(repr.ack_number);
    let [m, n] = be16(repr.window_len as usize);
    [a, b, c, d, e, f, g, h, i, j, k, l, offset, flags, m, n, 0, 0, 0, 0]
}

/// What a header with a checksum of 0 adds to a sum that is not folded. It is worked out from the numbers: what was
/// just written in single bytes is read slowly as words.
pub fn header_sum(repr: &TcpRepr<'_>, header_len: usize) -> u64 {
    let ports = repr.src_port as u64 + repr.dst_port as u64;
    let numbers = repr.seq_number.0 as u64 + ack_field(repr.ack_number) as u64;
    let flags = (control_bits(repr.control) + ack_bit(repr.ack_number)) as u64;
    let rest = (header_len / 4 * 16) as u64 * 256 + flags + repr.window_len as u64;
    ports + numbers + rest
}

fn control_bits(control: TcpControl) -> u8 {
    match control {
        TcpControl::None => 0,
        TcpControl::Fin => 1,
        TcpControl::Syn => 2,
        TcpControl::Rst => 4,
        TcpControl::Psh => 8,
    }
}

fn ack_bit(number: Option<TcpSeqNumber>) -> u8 {
    match number {
        None => 0,
        Some(_) => 16,
    }
}

fn ack_field(number: Option<TcpSeqNumber>) -> u32 {
    match number {
        None => 0,
        Some(number) => number.0,
    }
}

// A number as four bytes.
fn be32(number: u32) -> [u8; 4] {
    let [a, b] = be16((number / 65536) as usize);
    let [c, d] = be16(number as usize);
    [a, b, c, d]
}

// Writes the options, and END up to the end of the header.
fn put_options(repr: &TcpRepr<'_>, header_len: usize, buffer: &mut [u8], at: usize) -> usize {
    options_count(repr);
    if header_len == 20 {
        return at; // most segments have none: one test in place of six
    }
    let [a, b, c] = repr.sack_ranges;
    let at = put_mss(buffer, at, repr.max_seg_size);
    let at = put_scale(buffer, at, repr.window_scale);
    let at = put_permitted(buffer, at, repr.sack_permitted);
    let count = sack_count(&repr.sack_ranges);
    let at = put_sack(buffer, at, count == 0, count, a, b, c);
    let at = put_stamp(buffer, at, repr.timestamp);
    put_padding(buffer, at, header_len - at)
}

// Writes `piece` at `at`. Answers where it ends.
fn append(buffer: &mut [u8], at: usize, piece: &[u8]) -> usize {
    put(buffer, at, piece);
    at + piece.len()
}

fn put_mss(buffer: &mut [u8], at: usize, size: Option<u16>) -> usize {
    let Some(size) = size else {
        return at;
    };
    let [high, low] = be16(size as usize);
    append(buffer, at, &[2, 4, high, low])
}

fn put_scale(buffer: &mut [u8], at: usize, bits: Option<u8>) -> usize {
    let Some(bits) = bits else {
        return at;
    };
    append(buffer, at, &[3, 3, bits])
}

fn put_permitted(buffer: &mut [u8], at: usize, permitted: bool) -> usize {
    if !permitted {
        return at;
    }
    append(buffer, at, &[4, 2])
}

fn put_stamp(buffer: &mut [u8], at: usize, stamp: Option<TcpTimestampRepr>) -> usize {
    let Some(stamp) = stamp else {
        return at;
    };
    let [a, b, c, d] = be32(stamp.tsval);
    let [e, f, g, h] = be32(stamp.tsecr);
    append(buffer, at, &[8, 10, a, b, c, d, e, f, g, h])
}

fn put_range(buffer: &mut [u8], at: usize, range: Option<(u32, u32)>) -> usize {
    let Some((from, to)) = range else {
        return at;
    };
    let [a, b, c, d] = be32(from);
    let [e, f, g, h] = be32(to);
    append(buffer, at, &[a, b, c, d, e, f, g, h])
}

fn put_padding(buffer: &mut [u8], at: usize, count: usize) -> usize {
    if count == 0 {
        return at;
    }
    append(buffer, at, &[0, 0, 0][..count])
}

/// Writes the checksum of a segment, of what was summed before, with its header, and of what stands behind the header.
pub fn fill_checksum(front: u64, swapped: u64, buffer: &mut [u8]) {
    let checksum = 0xffff - sum_after_wide(front, swapped, behind(buffer, 20));
    put(buffer, 16, &be16(checksum as usize));
}

// The option's kind and length stand before the blocks.
fn put_sack(
    buffer: &mut [u8],
    at: usize,
    none: bool,
    count: usize,
    a: Option<(u32, u32)>,
    b: Option<(u32, u32)>,
    c: Option<(u32, u32)>,
) -> usize {
    if none {
        return at;
    }
    let at = append(buffer, at, &[5, (2 + 8 * count) as u8]);
    put_ranges(buffer, at, a, b, c)
}

fn put_ranges(
    buffer: &mut [u8],
    at: usize,
    a: Option<(u32, u32)>,
    b: Option<(u32, u32)>,
    c: Option<(u32, u32)>,
) -> usize {
    let at = put_range(buffer, at, a);
    let at = put_range(buffer, at, b);
    put_range(buffer, at, c)
}
