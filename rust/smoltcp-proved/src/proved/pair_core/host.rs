// Made from crates/pair_core/src/host.rt by rust/translate: change it there.
//! One side of a pair: its socket, and what it accepted and handed out.

use crate::kit::alloc::Global;
use crate::kit::{Vec, vec};
use crate::proved::control_wire::{TcpRepr, TcpTimestampGenerator};
use crate::proved::ip_wire::{IpEndpoint, IpListenEndpoint, IpRepr};
use crate::proved::pair_core::capture::{Capture, EmitFailed, Sent};
use crate::proved::pair_core::moment::Moment;
use crate::proved::pair_core::outcome::{Outcome, PairError};
use crate::proved::pair_core::segment::Segment;
use crate::proved::pair_core::setting::Setting;
use crate::proved::pair_core::wire::Counts;
use crate::proved::sock_tcp::{
    Generator, RecvError, Reply, SendError, Socket, SocketBuffer, State, TsvalSource,
};

/// How a side was opened.
#[derive(Debug, Clone, Copy, PartialEq, Eq)]
pub enum Opening {
    Unopened,
    Listener,
    Connector,
}

/// A call that takes nothing, or a setting.
#[derive(Clone, Copy)]
pub enum Call {
    Listen,
    Close,
    Abort,
    Set(Setting),
}

// The type parameter is the socket's: contracts see the source of timestamps as a value of that type, since a function
// pointer cannot stand in a value itself.
#[derive(Debug)]
pub(crate) struct Host<'a, G = Generator> {
    pub(crate) socket: Socket<'a, G>,
    pub(crate) endpoint: IpEndpoint,
    pub(crate) opening: Opening,
    pub(crate) accepted: Vec<u8>,
    pub(crate) handed_out: Vec<u8>,
    pub(crate) released: u64,
    pub(crate) taken: u64,
    pub(crate) closed: bool,
}

impl<'a> Host<'a> {
    pub(crate) fn new(
        alloc: Global,
        rx: SocketBuffer<'a>,
        tx: SocketBuffer<'a>,
        endpoint: IpEndpoint,
        generator: Option<TcpTimestampGenerator>,
    ) -> Host<'a> {
        let mut host = Host::without_timestamps(alloc, rx, tx, endpoint);
        host.socket.set_tsval_generator(generator);
        host
    }
}

impl<'a, G> Host<'a, G> {
    pub(crate) fn without_timestamps(
        alloc: Global,
        rx: SocketBuffer<'a>,
        tx: SocketBuffer<'a>,
        endpoint: IpEndpoint,
    ) -> Host<'a, G> {
        Host {
            socket: Socket::closed(rx, tx, None),
            endpoint,
            opening: Opening::Unopened,
            accepted: Vec::new(alloc),
            handed_out: Vec::new(alloc),
            released: 0,
            taken: 0,
            closed: false,
        }
    }
}

impl<'a, G: TsvalSource> Host<'a, G> {
    pub(crate) fn endpoint(&self) -> IpEndpoint {
        self.endpoint
    }

    pub(crate) fn counts(&self) -> Counts {
        Counts { released: self.released, taken: self.taken }
    }

    // Says what its socket keeps, and that the bytes accepted are fewer than 2^63.
    pub(crate) fn in_range(&self) {
        // each for its contract
        self.socket.recv_queue();
        self.socket.send_queue();
        self.socket.state();
        self.accepted.len();
    }

    fn listen_endpoint(&self) -> IpListenEndpoint {
        IpListenEndpoint { addr: Some(self.endpoint.addr), port: self.endpoint.port }
    }

    fn listen(&mut self) -> Outcome {
        if self.opening != Opening::Unopened {
            return Outcome::AlreadyOpened;
        }
        let endpoint = self.listen_endpoint();
        let _ = self.socket.listen(endpoint);
        self.opening = Opening::Listener;
        Outcome::Opened
    }

    pub(crate) fn connect(&mut self, moment: &Moment, remote: IpEndpoint) -> Outcome {
        if self.opening != Opening::Unopened {
            return Outcome::AlreadyOpened;
        }
        let endpoint = self.listen_endpoint();
        let mut cx = *moment;
        let _ = self.socket.connect(&mut cx, remote, endpoint);
        self.opening = Opening::Connector;
        Outcome::Opened
    }

    pub(crate) fn accepted_len(&self) -> usize {
        self.accepted.len()
    }

    // What fits of the bytes, once there is room to keep all of them: by `send_slice`, or by `send` where the closure
    // takes at most so many.
    pub(crate) fn send(&mut self, bytes: &[u8], take: Option<usize>) -> Result<Outcome, PairError> {
        if let Err(_) = self.accepted.reserve(bytes.len()) {
            return Err(PairError::Memory);
        }
        let sent = match take {
            None => self.socket.send_slice(bytes),
            Some(size) => send_piece(&mut self.socket, bytes, size),
        };
        match sent {
            Err(e) => Ok(Outcome::SendRefused(e)),
            Ok(count) => {
                append(&mut self.accepted, &bytes[..count]);
                Ok(Outcome::Accepted(count))
            }
        }
    }

    // At most so many bytes of the queue, once there is room to keep and to answer them: by `recv`, which takes one
    // piece, or by `recv_slice`.
    pub(crate) fn recv(&mut self, alloc: Global, size: usize, piece: bool) -> Result<Outcome, PairError> {
        if piece { self.recv_piece(alloc, size) } else { self.recv_slice(alloc, size) }
    }

    fn recv_slice(&mut self, alloc: Global, size: usize) -> Result<Outcome, PairError> {
        let count = size.min(self.socket.recv_queue());
        let Ok(mut bytes) = room(&mut self.handed_out, alloc, count) else {
            return Err(PairError::Memory);
        };
        match self.socket.recv_slice(bytes.as_mut_slice()) {
            Err(e) => Ok(Outcome::RecvRefused(e)),
            Ok(_) => {
                append(&mut self.handed_out, bytes.as_slice());
                Ok(Outcome::Read(bytes))
            }
        }
    }

    fn recv_piece(&mut self, alloc: Global, size: usize) -> Result<Outcome, PairError> {
        let count = size.min(self.socket.recv_queue());
        let bytes = room(&mut self.handed_out, alloc, count)?;
        match take_piece(&mut self.socket, bytes) {
            Err(e) => Ok(Outcome::RecvRefused(e)),
            Ok(bytes) => {
                append(&mut self.handed_out, bytes.as_slice());
                Ok(Outcome::Read(bytes))
            }
        }
    }

    // A close in ESTABLISHED or CLOSE-WAIT is what ends the side's stream; one of SYN-RECEIVED may wait for a delivery.
    fn close(&mut self) -> Outcome {
        if self.socket.may_send() {
            self.closed = true;
        }
        self.socket.close();
        Outcome::Done
    }

    fn abort(&mut self) -> Outcome {
        self.socket.abort();
        Outcome::Done
    }

    fn set(&mut self, setting: Setting) -> Outcome {
        set(&mut self.socket, setting);
        Outcome::Done
    }

    pub(crate) fn call(&mut self, call: Call) -> Outcome {
        match call {
            Call::Listen => self.listen(),
            Call::Close => self.close(),
            Call::Abort => self.abort(),
            Call::Set(setting) => self.set(setting),
        }
    }

    // How many bytes the payload of a dispatch has at most: no more than are queued, or the one of a keep-alive, and no
    // more than the largest IP packet. Where nothing is queued, a dispatch asks for a byte of memory, and not for a
    // packet.
    pub(crate) fn payload_at_most(&self, moment: &Moment) -> usize {
        moment.ip_mtu.min(self.socket.send_queue().max(1))
    }

    // One dispatch, into a room that was made before.
    pub(crate) fn dispatch(&mut self, moment: &Moment, room: Vec<u8>, fail: bool) -> Sent {
        let mut capture = Capture { moment: *moment, header: None, payload: room };
        let answer = self.socket.dispatch(
            &mut capture,
            move |cx: &mut Capture, sent: (IpRepr, TcpRepr<'_>)| -> Result<(), EmitFailed> {
                if fail { Err(EmitFailed) } else { cx.store(sent.0, sent.1) }
            },
        );
        capture.into_sent(answer)
    }

    pub(crate) fn accepts(&self, moment: &Moment, segment: &Segment) -> bool {
        let repr = segment.as_repr();
        self.socket.accepts(moment, &segment.header.ip_repr, &repr)
    }
}

impl<'a, G: TsvalSource> Host<'a, G> {
    // A delivery to this side.
    pub(crate) fn deliver(&mut self, moment: &Moment, segment: &Segment) -> Option<Reply> {
        let before = self.socket.state();
        let unacknowledged = self.socket.send_queue();
        let queued = self.socket.recv_queue();
        let reply = process(&mut self.socket, moment, segment);
        let left = self.socket.send_queue();
        let joined = self.socket.recv_queue();
        self.released += unacknowledged.saturating_sub(left) as u64;
        self.taken += joined.saturating_sub(queued) as u64;
        let after = self.socket.state();
        self.closed = closed_by_segment(before, after, self.closed);
        reply
    }
}

// Whether the own FIN is queued, and not acknowledged.
fn is_fin_queued(state: State) -> bool {
    matches!(state, State::FinWait1 | State::Closing | State::LastAck)
}

// Whether a side counts as closed, once a segment moved its socket's state.
fn closed_by_segment(before: State, after: State, closed: bool) -> bool {
    if is_fin_queued(after) && !is_fin_queued(before) { true } else { closed }
}

// One setter of a socket.
fn set<G: TsvalSource>(socket: &mut Socket<'_, G>, setting: Setting) {
    match setting {
        Setting::Timeout(t) => socket.set_timeout(t.duration),
        Setting::AckDelay(t) => socket.set_ack_delay(t.duration),
        Setting::KeepAlive(t) => socket.set_keep_alive(t.duration),
        Setting::Nagle(on) => socket.set_nagle_enabled(on),
        Setting::HopLimit(n) => socket.set_hop_limit(n.hop_limit),
        Setting::Congestion(kind) => socket.set_congestion_control(kind),
        Setting::Pause(on) => socket.pause_synack(on),
        Setting::Rules(rules) => {
            let _ = socket.set_rules(rules);
        }
    }
}

// A stored segment is processed.
fn process<G: TsvalSource>(socket: &mut Socket<'_, G>, moment: &Moment, segment: &Segment) -> Option<Reply> {
    segment.in_range(); // for its contract
    let mut cx = *moment;
    let repr = segment.as_repr();
    socket.process(&mut cx, &segment.header.ip_repr, &repr)
}

// `send`, whose closure writes what fits of the bytes into the places that it is lent, and takes at most so many.
fn send_piece<G>(socket: &mut Socket<'_, G>, bytes: &[u8], size: usize) -> Result<usize, SendError> {
    socket.send(move |free: &mut [u8]| -> (usize, usize) {
        let count = bytes.len().min(free.len());
        free[..count].copy_from_slice(&bytes[..count]);
        let taken = size.min(count);
        (taken, taken)
    })
}

// `recv`, whose closure copies what fits of the bytes that it is lent into a room that was made before, and takes them.
fn take_piece<G>(socket: &mut Socket<'_, G>, room: Vec<u8>) -> Result<Vec<u8>, RecvError> {
    socket.recv(move |lent: &[u8]| -> (usize, Vec<u8>) {
        let count = room.len().min(lent.len());
        let mut bytes = room;
        bytes.truncate(count);
        bytes.as_mut_slice().copy_from_slice(&lent[..count]);
        (count, bytes)
    })
}

// Room for so many bytes that a read hands out, in its answer and in the list of all. Nothing takes no memory.
fn room(handed_out: &mut Vec<u8>, alloc: Global, count: usize) -> Result<Vec<u8>, PairError> {
    if count == 0 {
        return Ok(Vec::new(alloc));
    }
    if let Err(_) = handed_out.reserve(count) {
        return Err(PairError::Memory);
    }
    match vec![in alloc; 0u8; count] {
        Err(_) => Err(PairError::Memory),
        Ok(room) => Ok(room),
    }
}

// Adds bytes for which room was made.
fn append(list: &mut Vec<u8>, bytes: &[u8]) {
    let _ = list.extend_from_slice(bytes);
}
