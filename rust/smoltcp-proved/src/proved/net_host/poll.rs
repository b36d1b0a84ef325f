// Made from crates/net_host/src/poll.rt by rust/translate: change it there.
//! An interface takes what arrived at a device, and hands out what its sockets have to say.

use crate::proved::host_context::Words;
use crate::proved::net_host::device::Device;
use crate::proved::net_host::interface::Interface;
use crate::proved::net_host::replies::LONGEST_REPLY;
use crate::proved::net_host::set::SocketSet;
use crate::proved::net_host::wire::TooShort;
use crate::sockets::sock_tcp::TsvalSource;
use crate::sockets::time::Instant;
use crate::sockets::wire::IpAddress;

/// How many packets a `poll` takes at most, and how many turns it gives at most.
pub const POLL_BURST: usize = 64;

// The packet at the beginning of a buffer is sent, or there is none.
fn send<D: Device>(device: &mut D, out: &[u8], len: usize) {
    if len > 0 {
        device.transmit(&out[..len]);
    }
}

// What `emit` wrote is sent. Whether a socket had a packet.
fn send_answer<D: Device>(device: &mut D, out: &[u8], answer: Result<usize, TooShort>) -> bool {
    match answer {
        Ok(len) => {
            send(device, out, len);
            len > 0
        }
        Err(_) => true,
    }
}

// Whether there is room for a packet of this MTU, and for what answers one.
fn have_room(mtu: usize, packet: &[u8], reply: &[u8]) -> bool {
    let mtu = mtu.min(65535).max(68);
    mtu <= packet.len() && mtu.max(LONGEST_REPLY) <= reply.len()
}

impl<W: Words> Interface<W> {
    /// Takes the packets that arrived at the device, and then gives the sockets that are due their turns, until the
    /// device has no room: at most `POLL_BURST` of each, and each by a `receive` or an `emit` at this moment, whose
    /// answer the device sends. How many of both; 0 if none arrived and none was due. Fewer packets are taken only if
    /// the device has no room or no packet more, and fewer turns given only if it has no room or no socket is due; so
    /// whatever arrives, sockets have their turns.
    ///
    /// The MTU becomes the device's. Where fewer than `POLL_BURST` are answered and the device has room, no socket is
    /// due, and `poll_at` lies after this moment; else call it again, for what is left.
    ///
    /// A packet of a socket that is longer than `packet` stays with its socket, and counts as a turn: only one over
    /// IPv6 can be, with an MTU below 576.
    ///
    /// `packet` and `reply` are room for a packet each, whatever is in them.
    ///
    /// # Errors
    /// `TooShort` where one of them is shorter than the MTU, or `reply` than 100 bytes; nothing happens then.
    pub fn poll<D: Device, G: TsvalSource>(
        &mut self,
        sockets: &mut SocketSet<'_, G>,
        now: Instant,
        device: &mut D,
        packet: &mut [u8],
        reply: &mut [u8],
    ) -> Result<usize, TooShort> {
        let mtu = device.max_transmission_unit();
        if !have_room(mtu, packet, reply) {
            return Err(TooShort);
        }
        self.fit(mtu);
        let heard = self.hear_all(sockets, now, device, packet, reply);
        let spoken = self.emit_all(sockets, now, device, packet);
        Ok(heard + spoken)
    }

    fn fit(&mut self, mtu: usize) {
        self.set_mtu(mtu);
    }

    // The next packet that arrived. Whether there was one.
    fn hear_next<D: Device, G: TsvalSource>(
        &mut self,
        sockets: &mut SocketSet<'_, G>,
        now: Instant,
        device: &mut D,
        packet: &mut [u8],
        reply: &mut [u8],
    ) -> bool {
        if !device.has_room() {
            return false;
        }
        let len = device.receive(packet);
        if len == 0 {
            return false;
        }
        let count = self.receive_at(sockets, now, &packet[..len], reply);
        send(device, reply, count);
        true
    }

    fn hear_all<D: Device, G: TsvalSource>(
        &mut self,
        sockets: &mut SocketSet<'_, G>,
        now: Instant,
        device: &mut D,
        packet: &mut [u8],
        reply: &mut [u8],
    ) -> usize {
        let mut count = 0;
        while count < POLL_BURST && self.hear_next(sockets, now, device, packet, reply) {
            count += 1;
        }
        count
    }

    // The next socket that is due. Whether it had a packet.
    fn emit_next<D: Device, G: TsvalSource>(
        &mut self,
        sockets: &mut SocketSet<'_, G>,
        now: Instant,
        device: &mut D,
        packet: &mut [u8],
    ) -> bool {
        let answer = self.emit(sockets, now, packet);
        send_answer(device, packet, answer)
    }

    fn emit_all<D: Device, G: TsvalSource>(
        &mut self,
        sockets: &mut SocketSet<'_, G>,
        now: Instant,
        device: &mut D,
        packet: &mut [u8],
    ) -> usize {
        let mut count = 0;
        while count < POLL_BURST && device.has_room() {
            if !self.emit_next(sockets, now, device, packet) {
                return count;
            }
            count += 1;
        }
        count
    }
}
