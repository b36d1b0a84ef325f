//! What docs/SMOLTCP.md says of two sides that send again at once.
mod common;
use common::*;
use smoltcp_proved::PollAt;
use smoltcp_proved::tcp::{CongestionControl, State};
use smoltcp_proved::time::Duration;

/// All that is due, as at most 64 packets.
fn emit(host: &mut Host) -> Vec<Vec<u8>> {
    std::iter::from_fn(|| host.emit()).take(64).collect()
}

/// Gives a packet to a host, the answer back, and so on, while there is one.
fn deliver(packet: &[u8], to: &mut Host, from: &mut Host) {
    let mut answer = to.take(packet);
    for turn in 0..16 {
        let Some(packet) = answer else {
            return;
        };
        answer = if turn % 2 == 0 { from.take(&packet) } else { to.take(&packet) };
    }
    panic!("answers without end");
}

/// Sends full segments both ways, `count` on each, with an answer to each, so that Reno's window opens.
fn warm<'a>(a: &mut Host<'a>, b: &mut Host<'a>, count: usize) {
    for _ in 0..count {
        for host in [&mut *a, &mut *b] {
            assert_eq!(host.socket.send_slice(&[1; 1460]), Ok(1460));
        }
        settle(a, b);
        for host in [&mut *a, &mut *b] {
            assert_eq!(host.socket.recv(|bytes| (bytes.len(), bytes.len())), Ok(1460));
        }
    }
}

/// Both sides send two segments, all come, and the acknowledgement of each side is lost; from then on nothing is lost.
/// Answers the states at the end of ten minutes, or where all is acknowledged.
fn two_lost_acknowledgements(control: CongestionControl) -> (State, State) {
    let mut rooms = [[0; 8192]; 4];
    let [p, q, r, s] = &mut rooms;
    let mut a = Host { socket: socket(p, q), cx: context(1, 1000) };
    let mut b = Host { socket: socket(r, s), cx: context(2, 5000) };
    for host in [&mut a, &mut b] {
        host.socket.set_congestion_control(control);
        host.socket.set_keep_alive(Some(Duration::from_secs(15)));
        host.socket.set_timeout(Some(Duration::from_secs(60)));
    }
    b.socket.listen(80).expect("a closed socket listens");
    a.socket.connect(&mut a.cx, (B, 80), 49152).expect("a closed socket connects");
    settle(&mut a, &mut b);
    warm(&mut a, &mut b, 3);

    for host in [&mut a, &mut b] {
        assert_eq!(host.socket.send_slice(&[2; 2920]), Ok(2920));
    }
    let (of_a, of_b) = (emit(&mut a), emit(&mut b));
    assert_eq!((of_a.len(), of_b.len()), (2, 2));
    of_b.iter().for_each(|packet| assert_eq!(a.take(packet), None));
    of_a.iter().for_each(|packet| assert_eq!(b.take(packet), None));
    assert_eq!((a.socket.recv_queue(), b.socket.recv_queue()), (2920, 2920));
    let lost = (emit(&mut a), emit(&mut b));
    assert_eq!((lost.0.len(), lost.1.len()), (1, 1));

    for _ in 0..600 {
        let mut next = a.cx.now() + Duration::from_secs(1);
        for host in [&a, &b] {
            if let PollAt::Time(at) = host.socket.poll_at(&host.cx) {
                next = next.min(at);
            }
        }
        a.cx.set_now(next);
        b.cx.set_now(next);
        let (of_a, of_b) = (emit(&mut a), emit(&mut b));
        if a.socket.state() == State::Closed {
            break;
        }
        of_a.iter().for_each(|packet| deliver(packet, &mut b, &mut a));
        of_b.iter().for_each(|packet| deliver(packet, &mut a, &mut b));
        if a.socket.send_queue() + b.socket.send_queue() == 0 {
            break;
        }
    }
    (a.socket.state(), b.socket.state())
}

/// With Reno's window of one segment behind a timeout, the user timeout alone ends it; without, it is over at once.
#[test]
fn both_sides_go_back() {
    let ended = (State::Closed, State::Closed);
    assert_eq!(two_lost_acknowledgements(CongestionControl::Reno), ended);
    let stands = (State::Established, State::Established);
    assert_eq!(two_lost_acknowledgements(CongestionControl::None), stands);
}
