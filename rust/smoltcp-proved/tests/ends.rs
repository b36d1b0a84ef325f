//! Why connections end, what was agreed, and bytes past a ring's end. Numbers are RFC 9293's and 2018's.
mod common;
use common::*;
use smoltcp_proved::sockets::tcp::{Ended, Negotiated, RecvError};

/// Calls `then` with the hosts of two sockets that are connected, the second of which listened.
fn connected(count: usize, then: impl FnOnce(Host<'_>, Host<'_>)) {
    let (mut p, mut q, mut r, mut s) = (vec![0; count], vec![0; count], vec![0; count], vec![0; count]);
    let mut a = Host { socket: socket(&mut p, &mut r), cx: context(1, 1000) };
    let mut b = Host { socket: socket(&mut q, &mut s), cx: context(2, 5000) };
    b.socket.listen(80).expect("a closed socket listens");
    a.socket.connect(&mut a.cx, (B, 80), 49152).expect("a closed socket connects");
    settle(&mut a, &mut b);
    then(a, b);
}

/// Both SYNs have MSS 1460, which an MTU of 1500 leaves, a scale of 0 and SACK permitted, and no timestamp.
#[test]
fn agreed() {
    connected(100, |a, _| {
        let wanted = Negotiated {
            remote_mss: 1460,
            remote_win_scale: Some(0),
            local_win_scale: 0,
            timestamps: false,
            sack: true,
            remote_window: 100,
        };
        assert_eq!((a.socket.negotiated(), a.socket.ended()), (Some(wanted), None));
    });
}

#[test]
fn finished_and_reset() {
    connected(100, |mut a, mut b| {
        a.socket.close();
        settle(&mut a, &mut b);
        b.socket.close();
        settle(&mut a, &mut b);
        assert_eq!((a.socket.ended(), b.socket.ended()), (None, Some(Ended::Finished)));
        a.wait();
        a.emit();
        assert_eq!(a.socket.ended(), Some(Ended::Finished));
    });
    connected(100, |mut a, mut b| {
        a.socket.abort();
        carry(&mut a, &mut b);
        assert_eq!((a.socket.ended(), b.socket.ended()), (Some(Ended::Aborted), Some(Ended::Reset)));
        assert_eq!(b.socket.recv_slice(&mut [0]), Err(RecvError::InvalidState));
        b.socket.listen(80).expect("a closed socket listens");
        assert_eq!((b.socket.ended(), b.socket.negotiated()), (None, None));
    });
}

#[test]
fn refused() {
    let (mut rx, mut tx) = ([0; 100], [0; 100]);
    let mut a = Host { socket: socket(&mut rx, &mut tx), cx: context(1, 1000) };
    a.socket.connect(&mut a.cx, (B, 80), 49152).expect("a closed socket connects");
    assert_eq!(a.socket.recv_slice(&mut [0]), Err(RecvError::InvalidState));
    assert_eq!((a.socket.ended(), a.socket.negotiated()), (None, None));
    let syn = a.emit().expect("a SYN");
    let mut rst = [0; 100];
    let len = reset(&syn, &mut rst).expect("an answer");
    a.take(&rst[..len]);
    assert_eq!(a.socket.ended(), Some(Ended::Refused));
    assert_eq!(Ended::Refused.to_string(), "refused by the peer");
}

/// 90 bytes lie over the end of a ring of 100: 20 at its end and 70 at its beginning.
#[test]
fn past_the_end() {
    connected(100, |mut a, mut b| {
        let bytes: Vec<u8> = (0..90).collect();
        a.socket.send_slice(&bytes[..80]).expect("open");
        settle(&mut a, &mut b);
        assert_eq!(b.socket.consume(100), Ok(80));
        settle(&mut a, &mut b);
        a.socket.send_slice(&bytes).expect("open");
        settle(&mut a, &mut b);
        assert_eq!(b.socket.peek(90).map(<[u8]>::len), Ok(20));
        assert_eq!(b.socket.consume(50), Ok(50));
        assert_eq!(b.socket.peek(90), Ok(&bytes[50..]));
    });
}
