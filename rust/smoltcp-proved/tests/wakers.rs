//! Tasks that wait for sockets: who is woken by what, as smoltcp's documentation says.
mod common;
use common::*;
use smoltcp_proved::tcp::{ListenError, State};
use smoltcp_proved::time::Duration;
use smoltcp_proved::wire::{IpAddress, Ipv6Address};
use smoltcp_proved::{icmp, raw, tcp, udp};
use std::cell::RefCell;
use std::future::{Future, poll_fn};
use std::pin::Pin;
use std::sync::Arc;
use std::sync::atomic::{AtomicUsize, Ordering};
use std::task::{Poll, Wake, Waker};

/// A task that counts how often it was woken since it was asked last.
#[derive(Default)]
struct Task(AtomicUsize);

impl Wake for Task {
    fn wake(self: Arc<Self>) {
        self.0.fetch_add(1, Ordering::Relaxed);
    }
}

/// A task that waits for what comes, and one that waits for room.
struct Tasks([Arc<Task>; 2]);

impl Tasks {
    fn new() -> Tasks {
        Tasks([Arc::new(Task::default()), Arc::new(Task::default())])
    }

    /// How often each was woken.
    fn woken(&self) -> (usize, usize) {
        (self.0[0].0.swap(0, Ordering::Relaxed), self.0[1].0.swap(0, Ordering::Relaxed))
    }

    fn wakers(&self) -> [Waker; 2] {
        [self.0[0].clone().into(), self.0[1].clone().into()]
    }
}

macro_rules! wait {
    ($tasks:expr, $socket:expr) => {{
        let [recv, send] = $tasks.wakers();
        $socket.register_recv_waker(&recv);
        $socket.register_send_waker(&send);
    }};
}

#[test]
fn tcp_connections() {
    let mut bytes = [[0; 64]; 4];
    let [p, q, r, s] = &mut bytes;
    let mut a = Host { socket: socket(p, q), cx: context(1, 1000) };
    let mut b = Host { socket: socket(r, s), cx: context(2, 5000) };
    let (of_a, of_b) = (Tasks::new(), Tasks::new());
    // a change of the state wakes both, once
    wait!(of_b, b.socket);
    b.socket.listen(80).expect("a closed socket listens");
    assert_eq!(of_b.woken(), (1, 1));
    wait!(of_b, b.socket);
    assert_eq!((b.socket.listen(80), b.socket.listen(81)), (Ok(()), Err(ListenError::InvalidState)));
    assert_eq!(of_b.woken(), (0, 0));
    wait!(of_a, a.socket);
    a.socket.connect(&mut a.cx, (B, 80), 49152).expect("a closed socket connects");
    assert_eq!(of_a.woken(), (1, 1));
    settle(&mut a, &mut b);
    assert_eq!((of_b.woken(), of_a.woken()), ((1, 1), (0, 0)));
    // bytes wake who reads, and their acknowledgement who sends; nobody a segment that tells nothing new
    wait!(of_a, a.socket);
    wait!(of_b, b.socket);
    a.socket.send_slice(b"hello").expect("room");
    let data = a.emit().expect("a segment");
    assert_eq!(of_a.woken(), (0, 0));
    assert_eq!((b.take(&data), of_b.woken()), (None, (1, 0)));
    b.cx.set_now(b.cx.now() + Duration::from_millis(100));
    let ack = b.emit().expect("an acknowledgement");
    assert_eq!((a.take(&ack), of_a.woken()), (None, (0, 1)));
    wait!(of_a, a.socket);
    assert_eq!((a.take(&ack), of_a.woken()), (None, (0, 0)));
    assert_eq!(b.socket.recv_slice(&mut [0; 9]), Ok(5));
    // the end of a stream wakes who reads
    wait!(of_b, b.socket);
    a.socket.close();
    assert_eq!((of_a.woken(), a.socket.state()), ((1, 1), State::FinWait1));
    settle(&mut a, &mut b);
    assert_eq!((of_b.woken(), b.socket.state()), ((1, 1), State::CloseWait));
    // the reset of `abort` wakes who sends, when it goes out
    b.socket.abort();
    wait!(of_b, b.socket);
    assert!(b.emit().is_some_and(|packet| flags(&packet) & RST != 0));
    assert_eq!((of_b.woken(), b.socket.remote_endpoint()), ((0, 1), None));
    assert_eq!(b.emit(), None);
    assert_eq!(of_b.woken(), (0, 0));
}

/// The last task that was registered is woken, and no other.
#[test]
fn one_task() {
    let (mut rx, mut tx) = ([0; 64], [0; 64]);
    let mut socket = socket(&mut rx, &mut tx);
    let (early, late) = (Tasks::new(), Tasks::new());
    wait!(early, socket);
    wait!(late, socket);
    wait!(late, socket);
    socket.listen(80).expect("a closed socket listens");
    assert_eq!((early.woken(), late.woken()), ((0, 0), (1, 1)));
    assert!(early.0.iter().chain(&late.0).all(|task| Arc::strong_count(task) == 1)); // none is kept
}

#[test]
fn datagrams() {
    let (mut places, mut bytes) = ([[udp::PacketMetadata::EMPTY; 2]; 2], [[0; 100]; 2]);
    let ([p, q], [r, s]) = (&mut places, &mut bytes);
    let (rx, tx) = (udp::PacketBuffer::new(p, r), udp::PacketBuffer::new(q, s));
    let (mut socket, cx, tasks) = (udp::Socket::new(rx, tx), context(1, 0), Tasks::new());
    wait!(tasks, socket);
    socket.bind(53).expect("a closed socket opens");
    assert_eq!(tasks.woken(), (1, 1));
    let mut out = [0; 100];
    wait!(tasks, socket);
    assert_eq!(socket.emit(&cx, &mut out), Ok(None));
    socket.send_slice(b"", (A, 53)).expect("room");
    assert_eq!(socket.emit(&cx, &mut out[..20]), Err(TooShort));
    assert_eq!(tasks.woken(), (0, 0));
    assert_eq!(socket.emit(&cx, &mut out), Ok(Some(28)));
    assert_eq!(tasks.woken(), (0, 1));
    // what is dropped for want of a source leaves room too
    wait!(tasks, socket);
    socket.send_slice(b"", (IpAddress::Ipv6(Ipv6Address::LOCALHOST), 53)).expect("room");
    let mut rest = [0; 100];
    assert_eq!(socket.emit(&cx, &mut rest), Ok(None));
    assert_eq!(tasks.woken(), (0, 1));
    wait!(tasks, socket);
    assert_eq!((socket.take(&cx, &out[..28]), tasks.woken()), (Ok(()), (1, 0)));
    wait!(tasks, socket);
    assert!(socket.take(&cx, &out[..27]).is_err());
    assert_eq!(tasks.woken(), (0, 0));
    socket.close();
    assert_eq!(tasks.woken(), (1, 1));
}

/// Messages and packets that are none are dropped by dispatch, without a packet, and leave room.
#[test]
fn messages_and_packets() {
    let (mut places, mut bytes) = ([[icmp::PacketMetadata::EMPTY; 2]; 2], [[0; 100]; 2]);
    let ([p, q], [r, s]) = (&mut places, &mut bytes);
    let (rx, tx) = (icmp::PacketBuffer::new(p, r), icmp::PacketBuffer::new(q, s));
    let (mut socket, cx, tasks) = (icmp::Socket::new(rx, tx), context(1, 0), Tasks::new());
    wait!(tasks, socket);
    socket.bind(icmp::Endpoint::Ident(7)).expect("a closed socket opens");
    assert_eq!(tasks.woken(), (1, 1));
    wait!(tasks, socket);
    socket.send_slice(&[8, 0, 0], B).expect("room");
    let mut out = [0; 100];
    assert_eq!((socket.emit(&cx, &mut out), tasks.woken()), (Ok(None), (0, 1)));
    let (mut places, mut bytes) = ([[raw::PacketMetadata::EMPTY; 2]; 2], [[0; 100]; 2]);
    let ([p, q], [r, s]) = (&mut places, &mut bytes);
    let (rx, tx) = (raw::PacketBuffer::new(p, r), raw::PacketBuffer::new(q, s));
    let mut socket = raw::Socket::new(None, None, rx, tx);
    wait!(tasks, socket);
    socket.send_slice(&[0x45]).expect("room");
    assert_eq!((socket.emit(&cx, &mut out), tasks.woken()), (Ok(None), (0, 1)));
    wait!(tasks, socket);
    assert_eq!((socket.emit(&cx, &mut out), tasks.woken()), (Ok(None), (0, 0)));
}

/// A future, whether it is to be polled, and what it has come to.
struct Run<'f, T> {
    future: Pin<Box<dyn Future<Output = T> + 'f>>,
    task: Arc<Task>,
    done: Option<T>,
}

impl<'f, T> Run<'f, T> {
    fn new(future: impl Future<Output = T> + 'f) -> Run<'f, T> {
        let task = Arc::new(Task(AtomicUsize::new(1)));
        Run { future: Box::pin(future), task, done: None }
    }

    /// Polls it where it was woken.
    fn turn(&mut self) {
        if self.done.is_none() && self.task.0.swap(0, Ordering::Relaxed) > 0 {
            let waker = self.task.clone().into();
            if let Poll::Ready(value) = self.future.as_mut().poll(&mut std::task::Context::from_waker(&waker))
            {
                self.done = Some(value);
            }
        }
    }
}

/// A task that writes more than the buffers hold, and one that reads to the end: each is polled only where it was
/// woken, so that a waker that is not woken leaves the transfer unfinished.
#[test]
fn tasks_wait_for_each_other() {
    let mut bytes = [[0; 64]; 4];
    let [p, q, r, s] = &mut bytes;
    let a = RefCell::new(Host { socket: socket(p, q), cx: context(1, 1000) });
    let b = RefCell::new(Host { socket: socket(r, s), cx: context(2, 5000) });
    let text: Vec<u8> = (0..5000_u32).map(|n| (n * 7 / 5) as u8).collect();
    let begin = |host: &mut Host| host.socket.connect(&mut host.cx, (B, 80), 49152);
    begin(&mut a.borrow_mut()).expect("a closed socket connects");
    let mut writer = Run::new(async {
        let mut rest = &text[..];
        while !rest.is_empty() {
            let count = poll_fn(|task| {
                let socket = &mut a.borrow_mut().socket;
                match socket.send_slice(rest) {
                    Ok(count) if count > 0 => Poll::Ready(count),
                    _ => {
                        socket.register_send_waker(task.waker());
                        Poll::Pending
                    }
                }
            })
            .await;
            rest = &rest[count..];
        }
        a.borrow_mut().socket.close();
    });
    b.borrow_mut().socket.listen(80).expect("a closed socket listens");
    let mut reader = Run::new(async {
        let mut came = Vec::new();
        loop {
            let piece = poll_fn(|task| {
                let socket = &mut b.borrow_mut().socket;
                match socket.recv(|bytes| (bytes.len(), bytes.to_vec())) {
                    Ok(bytes) if !bytes.is_empty() => Poll::Ready(Some(bytes)),
                    Err(tcp::RecvError::Finished) => Poll::Ready(None),
                    _ => {
                        socket.register_recv_waker(task.waker());
                        Poll::Pending
                    }
                }
            })
            .await;
            match piece {
                Some(bytes) => came.extend(bytes),
                None => return came,
            }
        }
    });
    for _ in 0..10_000 {
        writer.turn();
        reader.turn();
        let (a, b) = (&mut *a.borrow_mut(), &mut *b.borrow_mut());
        let now = a.cx.now() + Duration::from_millis(10);
        a.cx.set_now(now);
        b.cx.set_now(now);
        carry(a, b);
        carry(b, a);
    }
    assert!(writer.done.is_some() && reader.done.as_ref() == Some(&text));
}
