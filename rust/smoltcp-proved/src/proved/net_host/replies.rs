// Made from crates/net_host/src/replies.rt by rust/translate: change it there.
//! Replies as packets in a buffer.

use crate::proved::segment_wire::packet::{emit_tcp_with, emit_udp};
use crate::sockets::sock_tcp::Reply;
use crate::sockets::wire::{ChecksumCapabilities, IpRepr, TcpRepr, UdpRepr};

/// An IPv6 header and the longest TCP header, in bytes: no reply of a TCP socket is longer.
pub(crate) const LONGEST_REPLY: usize = 100;

/// Writes a packet at the beginning of `out`, and answers its length.
pub(crate) fn put_segment(
    ip: &IpRepr,
    repr: &TcpRepr<'_>,
    out: &mut [u8],
    caps: &ChecksumCapabilities,
) -> usize {
    put_segment_with(ip, repr, repr.header_len(), out, caps)
}

/// Writes a segment where the number of bytes of its header is known. Not inlined, as two ways lead here.
#[inline(never)]
pub(crate) fn put_segment_with(
    ip: &IpRepr,
    repr: &TcpRepr<'_>,
    header_len: usize,
    out: &mut [u8],
    caps: &ChecksumCapabilities,
) -> usize {
    let whole = ip.header_len() + ip.payload_len();
    emit_tcp_with(ip, repr, header_len, &mut out[..whole], caps);
    whole
}

/// Writes a packet with this datagram at the beginning of `out`, and answers its length.
pub(crate) fn put_datagram(
    ip: &IpRepr,
    repr: &UdpRepr,
    payload: &[u8],
    out: &mut [u8],
    caps: &ChecksumCapabilities,
) -> usize {
    let whole = ip.header_len() + ip.payload_len();
    emit_udp(ip, repr, payload, &mut out[..whole], caps);
    whole
}

/// Writes a packet with this payload at the beginning of `out`, and answers its length.
pub(crate) fn put_raw(ip: &IpRepr, payload: &[u8], out: &mut [u8], caps: &ChecksumCapabilities) -> usize {
    let whole = ip.header_len() + payload.len();
    write_raw(ip, payload, &mut out[..whole], caps);
    whole
}

fn write_raw(ip: &IpRepr, payload: &[u8], out: &mut [u8], caps: &ChecksumCapabilities) {
    ip.emit(out, caps);
    let start = ip.header_len();
    out[start..].copy_from_slice(payload);
}

/// Writes the reply, if any, at the beginning of `out`, and answers its length, or 0.
pub(crate) fn put_reply(reply: &Option<Reply>, out: &mut [u8], caps: &ChecksumCapabilities) -> usize {
    match reply {
        None => 0,
        Some((ip, repr)) => put_segment(ip, repr, out, caps),
    }
}
