// Made from crates/sock_dgram/src/queue.rt by rust/translate: change it there.
//! What the datagram sockets share: adding a packet to a queue, copying its first one, and the hop limit and the moment
//! of what is sent.

use crate::proved::ip_wire::octets::put_two;
use crate::proved::net_base::packet_buffer::PacketBuffer;
use crate::proved::sock_core::PollAt;
use crate::proved::sock_dgram::error::RecvError;

// The hop limit of what is sent: 64 where none is set (RFC 1122, section 3.2.1.7).
pub(crate) fn hops_of(hop_limit: Option<u8>) -> u8 {
    hop_limit.unwrap_or(64)
}

// When a socket with this transmit buffer wants its next dispatch.
pub(crate) fn poll_moment<M: Copy>(tx_buffer: &PacketBuffer<'_, M>) -> PollAt {
    if tx_buffer.is_empty() { PollAt::Ingress } else { PollAt::Now }
}

// Appends a packet, where there is room for it. Answers whether there was.
#[inline(always)]
fn append<M: Copy>(buffer: &mut PacketBuffer<'_, M>, meta: M, data: &[u8]) -> bool {
    let size = data.len();
    let (taken, from) = buffer.claim(size, meta);
    if !taken {
        return false;
    }
    buffer.part_mut(from, size).copy_from_slice(data);
    true
}

// Appends a packet, and says what then waits. Inlined, so that the metadata is made where it stays.
#[inline(always)]
pub(crate) fn store<M: Copy>(buffer: &mut PacketBuffer<'_, M>, meta: M, data: &[u8]) -> bool {
    append(buffer, meta, data)
}

// Appends a packet that is given in two pieces, where there is room for it.
pub(crate) fn store_both<M: Copy>(buffer: &mut PacketBuffer<'_, M>, meta: M, head: &[u8], data: &[u8]) {
    let size = head.len() + data.len();
    let (taken, from) = buffer.claim(size, meta);
    if !taken {
        return;
    }
    put_two(buffer.part_mut(from, size), head, data);
}

// Takes the first packet and copies its bytes into `data`. Answers how many they are, and the metadata.
//
// `Exhausted` where there is none; `Truncated` where `data` is too short: the packet is gone then, and `data` stays as
// it was.
pub(crate) fn take_into<M: Copy>(
    buffer: &mut PacketBuffer<'_, M>,
    data: &mut [u8],
) -> Result<(usize, M), RecvError> {
    let (meta, (from, size)) = buffer.take_first().ok_or(RecvError::Exhausted)?;
    if data.len() < size {
        return Err(RecvError::Truncated);
    }
    data[..size].copy_from_slice(buffer.part(from, size));
    Ok((size, meta))
}

// Copies the bytes of the first packet into `data`. Answers how many they are, and the metadata.
//
// `Exhausted` where there is none; `Truncated` where `data` is too short, which then stays as it was.
pub(crate) fn copy_first<'b, M: Copy>(
    buffer: &'b PacketBuffer<'_, M>,
    data: &mut [u8],
) -> Result<(usize, &'b M), RecvError> {
    let (meta, bytes) = buffer.first().map_err(|_| RecvError::Exhausted)?;
    if data.len() < bytes.len() {
        return Err(RecvError::Truncated);
    }
    data[..bytes.len()].copy_from_slice(bytes);
    Ok((bytes.len(), meta))
}
