//! Datagrams that are written and read where they lie, and written in a socket's room.
mod common;
use common::*;
use smoltcp_proved::udp::{RecvError, SendError, UdpMetadata};
use smoltcp_proved::wire::{Icmpv4Repr, IpAddress, IpEndpoint, IpProtocol, Ipv4Repr, Ipv6Address};
use smoltcp_proved::{icmp, raw, udp};
use std::panic::{AssertUnwindSafe, catch_unwind};

macro_rules! socket {
    ($kind:ident, $socket:ident($($arg:expr),*)) => {
        let (mut places, mut bytes) = ([[$kind::PacketMetadata::EMPTY; 2]; 2], [[0; 100]; 2]);
        let ([p, q], [r, s]) = (&mut places, &mut bytes);
        let (rx, tx) = ($kind::PacketBuffer::new(p, r), $kind::PacketBuffer::new(q, s));
        #[allow(unused_mut)]
        let mut $socket = $kind::Socket::new($($arg,)* rx, tx);
    };
}

#[test]
fn datagrams() {
    socket!(udp, a());
    socket!(udp, b());
    let (of_a, of_b) = (context(1, 0), context(2, 0));
    // refused as by `send_slice`, before anything is written
    assert_eq!(a.send_with(5, (B, 53), |_| panic!("written")), Err(SendError::Unaddressable));
    a.bind(49152).expect("a closed socket opens");
    b.bind(53).expect("a closed socket opens");
    for to in [(B, 0), (IpAddress::v4(0, 0, 0, 0), 53)] {
        assert_eq!(a.send_with(5, to, |_| panic!("written")), Err(SendError::Unaddressable));
    }
    for size in [101, usize::MAX] {
        assert_eq!(a.send_with(size, (B, 53), |_| panic!("written")), Err(SendError::BufferFull));
    }
    let mut other = UdpMetadata::from((B, 53));
    other.local_address = Some(Ipv6Address::LOCALHOST.into());
    assert_eq!(a.send_with(5, other, |bytes| bytes.len()), Err(SendError::Unaddressable));
    // as many bytes as the closure answers, of those that it was lent
    let write = |bytes: &mut [u8]| {
        assert_eq!(bytes.len(), 100);
        bytes[..14].copy_from_slice(b"which address?");
        14
    };
    assert_eq!(a.send_with(100, (B, 53), write), Ok(14));
    assert_eq!(a.send_queue(), 14);
    let more = catch_unwind(AssertUnwindSafe(|| a.send_with(5, (B, 53), |bytes| bytes.len() + 1)));
    assert!(more.is_err() && a.send_queue() == 14);
    // fewer bytes are free than the datagram may have
    assert_eq!(a.send_with(100, (B, 53), |_| panic!("written")), Err(SendError::BufferFull));
    assert_eq!(a.send_with(10, (B, 53), |_| 0), Ok(0));
    assert_eq!(a.send_with(10, (B, 53), |_| panic!("written")), Err(SendError::BufferFull)); // no place is left
    let mut packets = [[0; 100]; 2];
    let [first, second] = &mut packets;
    assert_eq!(a.emit(&of_a, first), Ok(Some(20 + 8 + 14)));
    assert_eq!(a.emit(&of_a, second), Ok(Some(20 + 8)));
    // read where they lie, whatever room was lent
    assert_eq!(b.peek(), Err(RecvError::Exhausted));
    assert_eq!(b.recv(), Err(RecvError::Exhausted));
    for packet in [&first[..42], &second[..28]] {
        assert_eq!(b.take(&of_b, packet), Ok(()));
    }
    let mut from = UdpMetadata::from(IpEndpoint::new(A, 49152));
    from.local_address = Some(B);
    assert_eq!(b.peek(), Ok((&b"which address?"[..], &from)));
    assert_eq!(b.recv(), Ok((&b"which address?"[..], from)));
    assert_eq!(b.peek(), Ok((&[][..], &from)));
    assert_eq!(b.recv(), Ok((&[][..], from)));
    assert_eq!(b.recv(), Err(RecvError::Exhausted));
    // and written where they lie, refused as by `send_slice`
    assert_eq!(b.send(15, (A, 0)), Err(SendError::Unaddressable));
    assert_eq!(b.send(101, (A, 49152)), Err(SendError::BufferFull));
    for text in [&b"this address"[..], b""] {
        let place = b.send(text.len(), (A, 49152)).expect("room");
        assert_eq!(place.len(), text.len());
        place.copy_from_slice(text);
    }
    assert_eq!(b.send(1, (A, 49152)), Err(SendError::BufferFull)); // no place is left
    assert_eq!(b.send_queue(), 12);
    assert_eq!(b.emit(&of_b, first), Ok(Some(20 + 8 + 12)));
    assert_eq!(a.take(&of_a, &first[..40]), Ok(()));
    let mut from = UdpMetadata::from(IpEndpoint::new(B, 53));
    from.local_address = Some(A);
    assert_eq!(a.recv(), Ok((&b"this address"[..], from)));
}

/// A ping and its answer, no byte of which is written by hand.
#[test]
fn messages() {
    socket!(icmp, socket());
    socket.bind(icmp::Endpoint::Ident(7)).expect("a closed socket opens");
    let request = Icmpv4Repr::EchoRequest { ident: 7, seq_no: 1, data: b"ping" };
    let write = |bytes: &mut [u8]| {
        put_message(&request, bytes);
        bytes.len()
    };
    let nowhere = IpAddress::v4(0, 0, 0, 0);
    assert_eq!(socket.send_with(12, nowhere, |_| panic!("written")), Err(icmp::SendError::Unaddressable));
    assert_eq!(socket.send_with(101, B, |_| panic!("written")), Err(icmp::SendError::BufferFull));
    assert_eq!(socket.send_with(request.buffer_len(), B, write), Ok(12));
    let (cx, mut packet) = (context(1, 0), [0; 100]);
    assert_eq!(socket.emit(&cx, &mut packet), Ok(Some(32)));
    put_message(&request, socket.send(12, B).expect("room"));
    let mut other = [0; 100];
    assert_eq!(socket.emit(&cx, &mut other), Ok(Some(32)));
    assert_eq!(other, packet);
    assert_eq!(socket.send(12, nowhere), Err(icmp::SendError::Unaddressable));
    assert_eq!(socket.send(101, B), Err(icmp::SendError::BufferFull));
    let (header, message) = header_in(&packet[..32]).expect("a packet of IPv4");
    assert_eq!(message_in(message, &caps()), Ok(request));
    let reply = Icmpv4Repr::EchoReply { ident: 7, seq_no: 1, data: b"ping" };
    let mut back = [0; 32];
    put_header(&Ipv4Repr { src_addr: header.dst_addr, dst_addr: header.src_addr, ..header }, &mut back);
    put_message(&reply, &mut back[20..]);
    assert_eq!(socket.take(&cx, &back), Ok(()));
    let (message, from) = socket.recv().expect("a message");
    assert_eq!((message_in(message, &caps()), from), (Ok(reply), B));
    assert_eq!(socket.recv(), Err(icmp::RecvError::Exhausted));
}

#[test]
fn packets() {
    socket!(raw, socket(None, Some(IpProtocol::Unknown(200))));
    let (src_addr, dst_addr) = ([10, 0, 0, 1].into(), [10, 0, 0, 2].into());
    let header =
        Ipv4Repr { src_addr, dst_addr, next_header: IpProtocol::Unknown(200), payload_len: 4, hop_limit: 9 };
    let write = |bytes: &mut [u8]| {
        put_header(&header, bytes);
        bytes[20..24].copy_from_slice(b"seen");
        24
    };
    assert_eq!(socket.send_with(101, |_| panic!("written")), Err(raw::SendError::BufferFull));
    assert_eq!(socket.send_with(40, write), Ok(24));
    let (cx, mut packet) = (context(1, 0), [0; 100]);
    assert_eq!(socket.emit(&cx, &mut packet), Ok(Some(24)));
    assert_eq!(header_in(&packet[..24]), Ok((header, &b"seen"[..])));
    assert_eq!(write(socket.send(24).expect("room")), 24);
    assert_eq!(socket.send(101), Err(raw::SendError::BufferFull));
    let mut other = [0; 100];
    assert_eq!((socket.emit(&cx, &mut other), other), (Ok(Some(24)), packet));
    assert_eq!(socket.take(&cx, &packet[..24]), Ok(()));
    assert_eq!(socket.peek(), Ok(&packet[..24]));
    assert_eq!(socket.recv(), Ok(&packet[..24]));
    assert_eq!(socket.peek(), Err(RecvError::Exhausted));
    assert_eq!(socket.recv(), Err(RecvError::Exhausted));
}
