// Made from crates/net_host/src/receive.rt by rust/translate: change it there.
//! What becomes of a packet that arrives.

use crate::proved::host_context::Words;
use crate::proved::net_host::arrival::{Kind, kind_in, refusal};
use crate::proved::net_host::cookies::{Course, note_on};
use crate::proved::net_host::copies::{copy_mail, copy_packet, hear_datagram_of};
use crate::proved::net_host::counters::{Counters, Reason};
use crate::proved::net_host::hearing::{Heard, hear_known, hear_sought};
use crate::proved::net_host::interface::Interface;
use crate::proved::net_host::messages::{Mail, echoed, mail_in, put_answer};
use crate::proved::net_host::passing::passed;
use crate::proved::net_host::segments::{Taker, known_taker};
use crate::proved::net_host::set::SocketSet;
use crate::proved::net_host::unreachable::{Unmet, tell_sender};
use crate::proved::segment_wire::packet::carried;
use crate::proved::segment_wire::{tcp, udp};
use crate::sockets::Context;
use crate::sockets::sock_tcp::TsvalSource;
use crate::sockets::wire::{
    ChecksumCapabilities, IpAddress, IpRepr, TcpControl, TcpRepr, TcpSeqNumber, UdpRepr,
};

impl<W: Words> Interface<W> {
    // The first row that fits. A packet of IPv4, which has no extension headers, goes on from here, so that the
    // compiler knows the version in all that follows.
    pub(crate) fn take_packet<G: TsvalSource>(
        &mut self,
        sockets: &mut SocketSet<'_, G>,
        packet: &[u8],
        out: &mut [u8],
    ) -> usize {
        let caps = self.inner.checksum_caps();
        match carried(packet, &caps) {
            None => self.drop_packet(Reason::Malformed),
            Some((IpRepr::Ipv4(header), bytes)) => {
                self.take_carried(sockets, &IpRepr::Ipv4(header), bytes, out)
            }
            Some((ip, bytes)) => self.take_whole(sockets, &ip, bytes, out),
        }
    }

    // Behind its extension headers.
    // Not inlined, so that what a packet of IPv4 runs through stays short.
    #[inline(never)]
    fn take_whole<G: TsvalSource>(
        &mut self,
        sockets: &mut SocketSet<'_, G>,
        ip: &IpRepr,
        bytes: &[u8],
        out: &mut [u8],
    ) -> usize {
        match passed(ip, bytes) {
            None => self.drop_packet(Reason::Malformed),
            Some((ip, bytes)) => self.take_carried(sockets, &ip, bytes, out),
        }
    }

    fn drop_packet(&mut self, reason: Reason) -> usize {
        self.counters.count(reason);
        0
    }

    // Inlined, as the rows that follow, where the version is known.
    #[inline(always)]
    fn take_carried<G: TsvalSource>(
        &mut self,
        sockets: &mut SocketSet<'_, G>,
        ip: &IpRepr,
        bytes: &[u8],
        out: &mut [u8],
    ) -> usize {
        let own = self.inner.has_ip_addr(ip.dst_addr());
        match refusal(&self.inner, own, &self.groups, ip) {
            Some(reason) => self.drop_packet(reason),
            None => self.take_looked_at(sockets, own, ip, bytes, out),
        }
    }

    #[inline(always)]
    fn take_looked_at<G: TsvalSource>(
        &mut self,
        sockets: &mut SocketSet<'_, G>,
        own: bool,
        ip: &IpRepr,
        bytes: &[u8],
        out: &mut [u8],
    ) -> usize {
        copy_packet(sockets, &self.inner, ip, bytes);
        let kind = kind_in(own, ip);
        self.take_kind(sockets, kind, ip, bytes, out)
    }

    #[inline(always)]
    fn take_kind<G: TsvalSource>(
        &mut self,
        sockets: &mut SocketSet<'_, G>,
        kind: Kind,
        ip: &IpRepr,
        bytes: &[u8],
        out: &mut [u8],
    ) -> usize {
        match kind {
            Kind::Tcp => self.take_tcp(sockets, ip, bytes, out),
            Kind::Udp => self.take_udp(sockets, ip, bytes, out),
            Kind::Icmp => self.take_icmp(sockets, ip, bytes, out),
            Kind::Other => self.take_other(sockets, ip, bytes, out),
            Kind::Foreign => self.drop_packet(Reason::Destination),
        }
    }

    // Not inlined, so that what a segment of TCP runs through stays short.
    #[inline(never)]
    fn take_other<G: TsvalSource>(
        &mut self,
        sockets: &mut SocketSet<'_, G>,
        ip: &IpRepr,
        bytes: &[u8],
        out: &mut [u8],
    ) -> usize {
        self.counters.count(Reason::Protocol);
        tell_sender(sockets, &self.inner, &mut self.errors, Unmet::Protocol, ip, bytes, out)
    }

    // Not inlined, as `take_other`.
    #[inline(never)]
    fn take_udp<G: TsvalSource>(
        &mut self,
        sockets: &mut SocketSet<'_, G>,
        ip: &IpRepr,
        bytes: &[u8],
        out: &mut [u8],
    ) -> usize {
        let caps = self.inner.checksum_caps();
        match datagram_in(&caps, ip, bytes) {
            None => self.drop_packet(Reason::Datagram),
            Some((repr, payload)) => self.take_datagram(sockets, ip, bytes, &repr, payload, out),
        }
    }

    fn take_datagram<G: TsvalSource>(
        &mut self,
        sockets: &mut SocketSet<'_, G>,
        ip: &IpRepr,
        bytes: &[u8],
        repr: &UdpRepr,
        payload: &[u8],
        out: &mut [u8],
    ) -> usize {
        let (found, room) = hear_datagram_of(sockets, &self.inner, ip, repr, payload);
        count_found(&mut self.counters, found, room);
        self.tell_if(sockets, found, ip, bytes, out)
    }

    // The sender is told, where no socket takes the datagram.
    fn tell_if<G: TsvalSource>(
        &mut self,
        sockets: &mut SocketSet<'_, G>,
        found: Option<usize>,
        ip: &IpRepr,
        bytes: &[u8],
        out: &mut [u8],
    ) -> usize {
        match found {
            Some(_) => 0,
            None => tell_sender(sockets, &self.inner, &mut self.errors, Unmet::Port, ip, bytes, out),
        }
    }

    // What a connection heard of it is not counted.
    pub(crate) fn take_message<G: TsvalSource>(
        &mut self,
        sockets: &mut SocketSet<'_, G>,
        heard: bool,
        ip: &IpRepr,
        bytes: &[u8],
        out: &mut [u8],
    ) -> usize {
        let caps = self.inner.checksum_caps();
        match mail_in(&caps, ip, bytes) {
            None if heard => 0,
            None => self.drop_packet(Reason::Message),
            Some(mail) => self.take_mail(sockets, &mail, out),
        }
    }

    fn take_mail<G: TsvalSource>(
        &self,
        sockets: &mut SocketSet<'_, G>,
        mail: &Mail<'_>,
        out: &mut [u8],
    ) -> usize {
        copy_mail(sockets, &self.inner, mail);
        let answer = echoed(mail);
        let caps = self.inner.checksum_caps();
        put_answer(&answer, self.inner.ip_mtu(), out, &caps)
    }

    // Not inlined, as it has what a segment runs through, and two callers: one of each version of IP.
    #[inline(never)]
    fn take_tcp<G: TsvalSource>(
        &mut self,
        sockets: &mut SocketSet<'_, G>,
        ip: &IpRepr,
        bytes: &[u8],
        out: &mut [u8],
    ) -> usize {
        let caps = self.inner.checksum_caps();
        let mut repr = unread(bytes);
        if !tcp::parse_behind_into(&mut repr, ip, bytes, &caps) {
            return self.drop_packet(Reason::Segment);
        }
        self.take_short(sockets, ip, &repr, out)
    }

    fn take_short<G: TsvalSource>(
        &mut self,
        sockets: &mut SocketSet<'_, G>,
        ip: &IpRepr,
        repr: &TcpRepr<'_>,
        out: &mut [u8],
    ) -> usize {
        if repr.payload.len() <= 65535 {
            self.take_segment(sockets, ip, repr, out)
        } else {
            self.drop_packet(Reason::Segment)
        }
    }

    // One for a connection whose place is known goes a short way.
    #[inline(always)]
    fn take_segment<G: TsvalSource>(
        &mut self,
        sockets: &mut SocketSet<'_, G>,
        ip: &IpRepr,
        repr: &TcpRepr<'_>,
        out: &mut [u8],
    ) -> usize {
        match known_taker(sockets, &self.inner, ip, repr) {
            Some(i) => hear_known(sockets, i, &mut self.inner, &mut self.resets, ip, repr, out),
            None => self.seek_taker(sockets, ip, repr, out),
        }
    }

    // Not inlined, so that what a segment for a connection runs through stays short.
    #[inline(never)]
    fn seek_taker<G: TsvalSource>(
        &mut self,
        sockets: &mut SocketSet<'_, G>,
        ip: &IpRepr,
        repr: &TcpRepr<'_>,
        out: &mut [u8],
    ) -> usize {
        let now = self.inner.environment.now;
        let (heard, len) = hear_sought(
            sockets,
            &mut self.inner,
            &mut self.resets,
            &self.cookies,
            self.most_of_source,
            ip,
            repr,
            out,
        );
        count_heard(&mut self.counters, &heard);
        note_on(&mut self.cookies, heard.course, now);
        len
    }
}

// What a segment is read into.
fn unread(bytes: &[u8]) -> TcpRepr<'_> {
    TcpRepr {
        src_port: 0,
        dst_port: 0,
        control: TcpControl::None,
        seq_number: TcpSeqNumber(0),
        ack_number: None,
        window_len: 0,
        window_scale: None,
        max_seg_size: None,
        sack_permitted: false,
        sack_ranges: [None, None, None],
        timestamp: None,
        payload: bytes,
    }
}

fn count_taker(counters: &mut Counters, taker: Taker) {
    match taker {
        Taker::Busy => counters.count(Reason::Busy),
        Taker::Nobody => counters.count(Reason::Nobody),
        _ => {}
    }
}

fn count_again(counters: &mut Counters, again: Taker) {
    match again {
        Taker::Listener(_) | Taker::Reused(_) => counters.count_taken(),
        _ => counters.count(Reason::Busy),
    }
}

fn count_heard(counters: &mut Counters, heard: &Heard) {
    match heard.course {
        Course::Plain => count_taker(counters, heard.taker),
        Course::Doubted => {
            count_taker(counters, heard.taker);
            counters.count_wrong();
        }
        Course::Answered(..) => counters.count_sent(),
        Course::Believed(..) => count_again(counters, heard.again),
        Course::Dropped => counters.count(Reason::TooMany),
    }
}

fn count_found(counters: &mut Counters, found: Option<usize>, room: bool) {
    match found {
        None => counters.count(Reason::Nobody),
        Some(_) => {
            if !room {
                counters.count(Reason::Full);
            }
        }
    }
}

// The UDP datagram that stands behind a header.
fn datagram_in<'p>(caps: &ChecksumCapabilities, ip: &IpRepr, bytes: &'p [u8]) -> Option<(UdpRepr, &'p [u8])> {
    udp::parse(bytes, &ip.src_addr(), &ip.dst_addr(), caps).ok()
}
