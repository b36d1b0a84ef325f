// Made from crates/pair_core/src/pair.rt by rust/translate: change it there.
//! Two sockets, and every segment that they emitted.

use crate::kit::Vec;
use crate::kit::alloc::Global;
use crate::proved::control_wire::TcpTimestampGenerator;
use crate::proved::ip_wire::IpEndpoint;
use crate::proved::pair_core::event::Event;
use crate::proved::pair_core::host::{Call, Host};
use crate::proved::pair_core::moment::Moment;
use crate::proved::pair_core::outcome::{Outcome, PairError};
use crate::proved::pair_core::segment::Segment;
use crate::proved::pair_core::setting::Setting;
use crate::proved::pair_core::side::Side;
use crate::proved::pair_core::wire::{deliver, dispatch};
use crate::proved::sock_tcp::{Generator, Socket, SocketBuffer, TsvalSource};

/// What one side of a pair begins with.
pub struct Setup<'a> {
    /// The receive buffer: empty, of at most 2^30 bytes.
    pub rx: SocketBuffer<'a>,
    /// The transmit buffer: empty, of at most 2^30 bytes.
    pub tx: SocketBuffer<'a>,
    /// The side's address and port, neither of them zero.
    pub endpoint: IpEndpoint,
    /// The source of timestamps, where there is one: a function that may always be called.
    pub generator: Option<TcpTimestampGenerator>,
}

/// Two TCP sockets, A and B, and every segment that they ever emitted, which may be delivered at any time and any
/// number of times.
#[derive(Debug)]
pub struct Pair<'a, G = Generator> {
    a: Host<'a, G>,
    b: Host<'a, G>,
    segments: Vec<Segment>,
    limit: Option<u32>,
    alloc: Global,
}

impl<'a> Pair<'a> {
    /// Two closed sockets and no segment.
    ///
    /// The buffers are empty and of at most 2^30 bytes each; the endpoints are different, specified, of one version,
    /// and their ports not zero; `limit`, where there is one, is below 2^29 and bounds the bytes that each side
    /// accepts.
    pub fn new(alloc: Global, a: Setup<'a>, b: Setup<'a>, limit: Option<u32>) -> Pair<'a> {
        Pair {
            a: Host::new(alloc, a.rx, a.tx, a.endpoint, a.generator),
            b: Host::new(alloc, b.rx, b.tx, b.endpoint, b.generator),
            segments: Vec::new(alloc),
            limit,
            alloc,
        }
    }
}

impl<'a, G> Pair<'a, G> {
    /// A pair of two sockets that never have a source of timestamps, whatever the setups say of that; so the type of
    /// the sources may be any.
    pub fn without_timestamps(alloc: Global, a: Setup<'a>, b: Setup<'a>, limit: Option<u32>) -> Pair<'a, G> {
        Pair {
            a: Host::without_timestamps(alloc, a.rx, a.tx, a.endpoint),
            b: Host::without_timestamps(alloc, b.rx, b.tx, b.endpoint),
            segments: Vec::new(alloc),
            limit,
            alloc,
        }
    }
}

impl<'a, G: TsvalSource> Pair<'a, G> {
    // A call on one of the sides is chosen by a `match`, and not made on a loan of a side for change: the invariant
    // speaks of both sides and the segments together, and is to be kept when a call returns, not when a loan ends.
    fn host(&self, side: Side) -> &Host<'a, G> {
        match side {
            Side::A => &self.a,
            Side::B => &self.b,
        }
    }

    /// All bytes that the side's socket took to send, in order.
    pub fn accepted(&self, side: Side) -> &[u8] {
        self.host(side).accepted.as_slice()
    }

    /// All bytes that the side's socket handed out, in order.
    pub fn handed_out(&self, side: Side) -> &[u8] {
        self.host(side).handed_out.as_slice()
    }

    /// How many bytes left the side's transmit queue by acknowledgement.
    pub fn released(&self, side: Side) -> u64 {
        self.host(side).released
    }

    /// How many bytes joined the side's receive queue.
    pub fn taken(&self, side: Side) -> u64 {
        self.host(side).taken
    }

    /// Whether a `Close` found the side in ESTABLISHED or CLOSE-WAIT, so that it accepts nothing more.
    pub fn closed(&self, side: Side) -> bool {
        self.host(side).closed
    }

    /// The side's socket.
    pub fn socket(&self, side: Side) -> &Socket<'a, G> {
        &self.host(side).socket
    }

    /// Every segment that was emitted, the first one first.
    pub fn segments(&self) -> &[Segment] {
        self.segments.as_slice()
    }

    fn call(&mut self, side: Side, call: Call) -> Outcome {
        match side {
            Side::A => self.a.call(call),
            Side::B => self.b.call(call),
        }
    }

    fn connect(&mut self, side: Side, moment: &Moment) -> Outcome {
        match side {
            Side::A => self.a.connect(moment, self.b.endpoint()),
            Side::B => self.b.connect(moment, self.a.endpoint()),
        }
    }

    // Whether so many more bytes of the side are more than the limit.
    fn is_over_limit(&self, side: Side, count: usize) -> bool {
        let accepted = match side {
            Side::A => self.a.accepted_len(),
            Side::B => self.b.accepted_len(),
        };
        match self.limit {
            None => false,
            Some(limit) => accepted + count > limit as usize,
        }
    }

    // By `send_slice`, or by `send` where the closure takes at most so many.
    fn send(&mut self, side: Side, bytes: &[u8], take: Option<usize>) -> Result<Outcome, PairError> {
        if self.is_over_limit(side, bytes.len()) {
            return Ok(Outcome::StreamLimit);
        }
        self.a.in_range(); // for its contract
        self.b.in_range(); // for its contract
        match side {
            Side::A => self.a.send(bytes, take),
            Side::B => self.b.send(bytes, take),
        }
    }

    // By `recv_slice`, or by `recv`, which takes one piece.
    fn recv(&mut self, side: Side, size: usize, piece: bool) -> Result<Outcome, PairError> {
        match side {
            Side::A => self.a.recv(self.alloc, size, piece),
            Side::B => self.b.recv(self.alloc, size, piece),
        }
    }

    fn dispatch(&mut self, side: Side, moment: &Moment, fail: bool) -> Result<Outcome, PairError> {
        match side {
            Side::A => dispatch(self.alloc, &mut self.a, Side::A, &mut self.segments, moment, fail),
            Side::B => dispatch(self.alloc, &mut self.b, Side::B, &mut self.segments, moment, fail),
        }
    }

    fn deliver(&mut self, index: usize, moment: &Moment) -> Result<Outcome, PairError> {
        if index >= self.segments.len() {
            return Ok(Outcome::NoSegment);
        }
        let segment = &self.segments[index];
        segment.in_range(); // for its contract
        self.a.in_range(); // for its contract
        self.b.in_range(); // for its contract
        match segment.from {
            Side::A => {
                let counts = self.a.counts();
                deliver(self.alloc, counts, &mut self.b, Side::B, &mut self.segments, index, moment)
            }
            Side::B => {
                let counts = self.b.counts();
                deliver(self.alloc, counts, &mut self.a, Side::A, &mut self.segments, index, moment)
            }
        }
    }

    // Says what every pair keeps, and each socket.
    fn is_pair(&self) {
        self.a.in_range(); // for its contract
        self.b.in_range(); // for its contract
    }

    // Says that the segment of this index, where there is one, has numbers of 32 bits.
    fn segment_in_range(&self, index: usize) {
        if index < self.segments.len() {
            self.segments[index].in_range(); // for its contract
        }
    }

    /// Says that the segment of this index, where there is one, can be written as a packet of at most 65535 bytes and
    /// read back.
    pub fn segment_fits(&self, index: usize) {
        if index < self.segments.len() {
            self.segments[index].fits(); // for its contract
        }
    }

    /// Says that the segment of this index, where there is one, goes from a port that is not 0 to one that is not 0:
    /// they are those of the pair's two ends, of which `new` asks it.
    pub fn segment_has_ports(&self, index: usize) {
        self.is_pair(); // for its contract
    }

    fn event_in_range(&self, event: &Event) {
        match event {
            Event::Deliver { index, .. } => self.segment_in_range(*index),
            _ => {}
        }
    }

    // So its promises hold.
    fn keeps_order(&self) {
        self.a.in_range(); // for its contract
    }

    fn abort(&mut self, side: Side) -> Outcome {
        self.call(side, Call::Abort)
    }

    fn perform(&mut self, event: &Event) -> Result<Outcome, PairError> {
        match event {
            Event::Listen { side } => Ok(self.call(*side, Call::Listen)),
            Event::Connect { side, moment } => Ok(self.connect(*side, moment)),
            Event::SendSlice { side, bytes } => self.send(*side, bytes.as_slice(), None),
            Event::Send { side, bytes, take } => self.send(*side, bytes.as_slice(), Some(*take)),
            Event::RecvSlice { side, size } => self.recv(*side, *size, false),
            Event::Recv { side, take } => self.recv(*side, *take, true),
            Event::Close { side } => Ok(self.call(*side, Call::Close)),
            Event::Abort { side } => Ok(self.abort(*side)),
            Event::Set { side, setting } => Ok(self.call(*side, Call::Set(*setting))),
            Event::Dispatch { side, moment, fail } => self.dispatch(*side, moment, *fail),
            Event::Deliver { index, moment } => self.deliver(*index, moment),
        }
    }

    /// Performs one event and answers its outcome.
    ///
    /// The event meets the case table of its call, and the other side's socket stays as it was. Afterwards what each
    /// side handed out, followed by its receive queue, is a prefix of what the other accepted, and acknowledgements
    /// have released only bytes that the other took. So `accepted` of the one side starts with `handed_out` of the
    /// other, in the words of slices. The bytes of a segment in order that lie in the receive window
    /// are queued before its delivery returns, and behind them what was held there. The event is a run of steps of the
    /// theorem on two streams, and adds to the streams what its outcome says.
    ///
    /// A read that answers `Finished` found the other side closed and all its bytes handed out, and what a closed side
    /// accepted stays as it is.
    ///
    /// `Memory` where a growth was refused; the pair is then as it was. `Listen`, `Connect`, `Close`, `Abort` and
    /// `Set` take no memory, nor does a read where nothing is queued, nor an event that comes to one of the last five
    /// outcomes.
    pub fn step(&mut self, event: &Event) -> Result<Outcome, PairError> {
        self.is_pair(); // for its contract
        self.event_in_range(event); // for its contract
        let outcome = self.perform(event);
        self.keeps_order(); // for its contract
        outcome
    }

    /// Performs the events in turn, and adds the outcome of each to `outcomes`.
    ///
    /// What `step` promises holds of each event and after each of them. So what each side accepted and handed out is
    /// what it had before, followed by what the added outcomes say in turn.
    ///
    /// `Memory` where a growth was refused; the events before that one were done, and `outcomes` has gained exactly
    /// their outcomes.
    pub fn run(&mut self, events: &[Event], outcomes: &mut Vec<Outcome>) -> Result<(), PairError> {
        self.keeps_order(); // for its contract
        for event in events {
            if let Err(_) = outcomes.reserve(1) {
                return Err(PairError::Memory);
            }
            let outcome = self.step(event)?;
            outcomes.push_reserved(outcome);
        }
        Ok(())
    }
}
