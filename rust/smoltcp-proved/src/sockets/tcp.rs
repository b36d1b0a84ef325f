//! TCP sockets (RFC 9293).
use super::Context;
use super::wakers::Wakers;
use crate::logged::{TOLD, tell};
use crate::proved::control_wire::TcpRepr;
use crate::proved::ip_wire::{IpEndpoint, IpListenEndpoint, IpRepr};
use crate::proved::sock_tcp as proved;
use core::fmt;
use core::ops::{Deref, DerefMut};

pub use crate::proved::sock_core::{RttEstimator, before, congestion, later, not_after, window_shift};
#[doc(hidden)]
pub use proved::tuple;
pub use proved::{
    CongestionControl, ConnectError, Ended, Generator, ListenError, Negotiated, RecvError, Reply, Response,
    Row, Rules, RulesError, SendError, SocketBuffer, State, TsvalSource,
};

/// A TCP socket: one end of one connection at a time, over two buffers; what it has beside is [`proved::Socket`]'s.
#[derive(Debug)]
pub struct Socket<'a, G = Generator> {
    proved: proved::Socket<'a, G>,
    wakers: Wakers,
}

impl fmt::Display for Ended {
    fn fmt(&self, f: &mut fmt::Formatter<'_>) -> fmt::Result {
        f.write_str(match self {
            Ended::Finished => "closed by both sides",
            Ended::Refused => "refused by the peer",
            Ended::Reset => "reset by the peer",
            Ended::TimedOut => "timed out",
            Ended::Aborted => "aborted",
            Ended::Unaddressable => "own address gone",
        })
    }
}

// What a task that waits would see of a socket.
#[derive(Clone, Copy, PartialEq)]
struct Seen {
    state: State,
    send_queue: usize,
    recv_queue: usize,
    has_peer: bool,
}

fn seen<G>(socket: &proved::Socket<'_, G>) -> Seen {
    Seen {
        state: socket.state(),
        send_queue: socket.send_queue(),
        recv_queue: socket.recv_queue(),
        has_peer: socket.remote_endpoint().is_some(),
    }
}

// The endpoints of a connection, where anybody is told of it.
#[inline(always)]
fn told_ends<G>(socket: &proved::Socket<'_, G>) -> Option<(IpEndpoint, IpEndpoint)> {
    if TOLD { socket.local_endpoint().zip(socket.remote_endpoint()) } else { None }
}

impl<'a> Socket<'a> {
    /// A closed socket over these two buffers, with no source of timestamps.
    ///
    /// # Panics
    /// Where the receive buffer is longer than 2^30 bytes, which no window tells (RFC 7323, section 2.3).
    pub fn new<T: Into<SocketBuffer<'a>>>(rx_buffer: T, tx_buffer: T) -> Socket<'a> {
        let rx_buffer = rx_buffer.into();
        assert!(rx_buffer.capacity() <= 1 << 30, "receiving buffer too large, cannot exceed 1 GiB");
        proved::Socket::new(rx_buffer, tx_buffer.into()).into()
    }

    /// A segment that answers this one, with its header: the addresses and ports the other way round, and nothing else.
    pub fn reply(ip_repr: &IpRepr, repr: &TcpRepr<'_>) -> Reply {
        proved::Socket::reply(ip_repr, repr)
    }

    /// The RST that answers a segment which is for no socket, and is no RST itself (RFC 9293, section 3.10.7.1).
    pub fn rst_reply(ip_repr: &IpRepr, repr: &TcpRepr<'_>) -> Reply {
        proved::Socket::rst_reply(ip_repr, repr)
    }
}

impl<'a, G> Socket<'a, G> {
    /// A closed socket over these buffers, with a source of timestamps of any kind, or none.
    pub fn closed(
        rx_buffer: SocketBuffer<'a>,
        tx_buffer: SocketBuffer<'a>,
        tsval_generator: Option<G>,
    ) -> Socket<'a, G> {
        proved::Socket::closed(rx_buffer, tx_buffer, tsval_generator).into()
    }

    /// The two buffers: received bytes that were not read, and sent ones that were not acknowledged, are their queues.
    pub fn into_buffers(self) -> (SocketBuffer<'a>, SocketBuffer<'a>) {
        self.proved.into_buffers()
    }

    // Makes a call that changes the socket, and wakes whom the change concerns, when it has ended.
    #[inline(always)]
    fn watched<R>(&mut self, call: impl FnOnce(&mut proved::Socket<'a, G>) -> R) -> R {
        if !self.wakers.any() && !TOLD {
            return call(&mut self.proved);
        }
        let (before, peer) = (seen(&self.proved), self.proved.remote_endpoint());
        let answer = call(&mut self.proved);
        self.wake(before);
        if TOLD && self.proved.state() != before.state {
            self.tell_state(before.state, peer);
        }
        answer
    }

    // The endpoints are those of now, or the peer's of before.
    fn tell_state(&self, before: State, peer: Option<IpEndpoint>) {
        match (self.proved.local_endpoint(), self.proved.remote_endpoint().or(peer)) {
            (Some(local), Some(remote)) => {
                tell!("{} -> {}: {} => {}", local, remote, before, self.proved.state());
            }
            _ => tell!("{}: {} => {}", self.proved.listen_endpoint(), before, self.proved.state()),
        }
    }

    #[cold]
    fn wake(&mut self, before: Seen) {
        let after = seen(&self.proved);
        if after.state != before.state {
            self.wakers.wake_both();
        }
        if after.recv_queue > before.recv_queue {
            self.wakers.wake_recv();
        }
        if after.send_queue < before.send_queue || after.has_peer != before.has_peer {
            self.wakers.wake_send();
        }
    }

    /// Wakes this task, once, where what `recv` answers may have changed: bytes came, or the state is another.
    ///
    /// One waker is kept, the last that was registered. A task that is woken may find that nothing has changed for it.
    /// All as in smoltcp.
    ///
    /// ```
    /// use core::{future::poll_fn, task::Poll};
    /// use smoltcp_proved::socket::tcp::{RecvError, Socket};
    ///
    /// /// Waits for bytes, whose count it answers.
    /// async fn read(socket: &mut Socket<'_>, data: &mut [u8]) -> Result<usize, RecvError> {
    ///     poll_fn(|task| match socket.recv_slice(data) {
    ///         Ok(0) => {
    ///             socket.register_recv_waker(task.waker());
    ///             Poll::Pending
    ///         }
    ///         answer => Poll::Ready(answer),
    ///     })
    ///     .await
    /// }
    /// # let _ = read;
    /// ```
    #[cfg(feature = "async")]
    pub fn register_recv_waker(&mut self, waker: &core::task::Waker) {
        self.wakers.register_recv(waker);
    }

    /// Wakes this task, once, where what `send` answers may have changed: bytes were acknowledged, the state is
    /// another, or the RST of `abort` went out.
    ///
    /// One waker is kept, the last that was registered. A task that is woken may find that nothing has changed for it.
    /// All as in smoltcp.
    #[cfg(feature = "async")]
    pub fn register_send_waker(&mut self, waker: &core::task::Waker) {
        self.wakers.register_send(waker);
    }

    /// Chooses the rules of a socket that is not open, as the proved call of this name.
    ///
    /// # Panics
    /// Where they are those of the RFCs, for which this build has no code.
    #[cfg(not(feature = "rules-rfc"))]
    pub fn set_rules(&mut self, rules: Rules) -> Result<(), RulesError> {
        assert!(rules == Rules::Smoltcp, "the rules of the RFCs want the feature rules-rfc");
        self.proved.set_rules(rules)
    }

    /// Waits for a peer on this endpoint.
    ///
    /// # Errors
    /// `Unaddressable` where the port is zero; else `InvalidState` where the socket is open, but for one that listens
    /// on this very endpoint, for which nothing changes. A refusal changes nothing.
    pub fn listen<T: Into<IpListenEndpoint>>(&mut self, local_endpoint: T) -> Result<(), ListenError> {
        self.watched(|socket| socket.listen(local_endpoint))
    }

    /// Opens a connection to `remote_endpoint`, from the local address given, else from the context's source address.
    ///
    /// # Errors
    /// `InvalidState` where the socket is open; else `Unaddressable`, tested in this order: the remote port is zero or
    /// the remote address unspecified; the local port is zero; the local address is unspecified; none is given and the
    /// context has none; the two addresses are of different versions. A refusal changes nothing and draws no random
    /// word.
    pub fn connect<C, T, U>(
        &mut self,
        cx: &mut C,
        remote_endpoint: T,
        local_endpoint: U,
    ) -> Result<(), ConnectError>
    where
        C: Context,
        T: Into<IpEndpoint>,
        U: Into<IpListenEndpoint>,
    {
        self.watched(|socket| socket.connect(cx, remote_endpoint, local_endpoint))
    }

    /// Sends no more: what is queued goes out, and then a FIN, as the proved call of this name.
    pub fn close(&mut self) {
        self.watched(|socket| socket.close());
    }

    /// Ends the connection: the socket is CLOSED, and the peer is told by an RST, as the proved call of this name.
    pub fn abort(&mut self) {
        self.watched(|socket| socket.abort());
    }

    /// Lends `f` the free places behind the transmit queue that stand in one piece. `f` answers how many bytes it put at
    /// their beginning, and these join the queue; beside that it answers what this call answers.
    ///
    /// # Errors
    /// `InvalidState` where `may_send` is false; `f` is not called then, and nothing changes.
    ///
    /// # Panics
    /// Where `f` answers more than it was lent.
    pub fn send<F, R>(&mut self, f: F) -> Result<R, SendError>
    where
        F: FnOnce(&mut [u8]) -> (usize, R),
    {
        self.proved.send(|room| {
            let (count, answer) = f(room);
            assert!(count <= room.len(), "no more bytes are sent than were lent");
            (count, answer)
        })
    }

    /// Lends `f` the receive queue up to the end of its ring's storage. `f` answers how many of these bytes leave the
    /// queue, from the first on; beside that it answers what this call answers.
    ///
    /// # Errors
    /// Where `may_recv` is false `f` is not called and nothing changes: `Finished` where the peer's FIN has come,
    /// else `InvalidState`.
    ///
    /// # Panics
    /// Where `f` answers more than it was lent.
    pub fn recv<'b, F, R>(&'b mut self, f: F) -> Result<R, RecvError>
    where
        F: FnOnce(&'b mut [u8]) -> (usize, R),
    {
        let len = self.proved.recv(|bytes| (0, bytes.len()))?;
        let block = &mut self.proved.control_block;
        let ring = &mut block.rx_buffer.ring;
        let (at, places) = (ring.read_at, ring.capacity());
        let (taken, answer) = f(&mut ring.storage[at..at + len]);
        assert!(taken <= len, "no more bytes are taken than were lent");
        // as the proved call, which lends the bytes for reading alone
        ring.read_at = if at + taken < places { at + taken } else { 0 };
        ring.length -= taken;
        block.remote_seq_no = block.remote_seq_no.plus(taken);
        Ok(answer)
    }
}

impl<'a, G: TsvalSource> Socket<'a, G> {
    /// The first half of [`Socket::process`], as the proved call of this name.
    #[inline(always)]
    pub fn take_segment<C: Context>(&mut self, cx: &mut C, ip_repr: &IpRepr, repr: &TcpRepr<'_>) -> Response {
        if TOLD {
            match self.proved.explain(cx, ip_repr, repr) {
                Row::Opens | Row::Fin | Row::InOrder | Row::BareAck => {}
                row => tell!("segment of {} bytes from {}: {}", repr.payload.len(), ip_repr.src_addr(), row),
            }
        }
        self.watched(
            #[inline(always)]
            |socket| socket.take_segment(cx, ip_repr, repr),
        )
    }

    /// Takes a segment that `accepts` holds of, with a payload of at most 65535 bytes, and gives the one that answers
    /// it, if any; that one has no payload (RFC 9293, section 3.10.7).
    #[inline(always)]
    pub fn process<C: Context>(&mut self, cx: &mut C, ip_repr: &IpRepr, repr: &TcpRepr<'_>) -> Option<Reply> {
        match self.take_segment(cx, ip_repr, repr) {
            Response::Nothing => None,
            response => self.proved.reply_by(response, ip_repr, repr),
        }
    }

    /// Emits the segment that is due, as the proved call of this name.
    #[inline(always)]
    pub fn dispatch<C: Context, E, F: FnOnce(&mut C, (IpRepr, TcpRepr<'_>)) -> Result<(), E>>(
        &mut self,
        cx: &mut C,
        emit: F,
    ) -> Result<(), E> {
        self.watched(
            #[inline(always)]
            |socket| {
                let (sent, ends) = (socket.control_block.remote_last_seq, told_ends(socket));
                socket.dispatch(
                    cx,
                    #[inline(always)]
                    |cx: &mut C, (ip, repr): (IpRepr, TcpRepr<'_>)| {
                        let again = repr.segment_len() > 0 && before(repr.seq_number, sent);
                        if let (true, Some((local, remote))) = (again, ends) {
                            tell!("{} -> {}: sends again from {}", local, remote, repr.seq_number.0);
                        }
                        emit(cx, (ip, repr))
                    },
                )
            },
        )
    }
}

impl<'a, G> From<proved::Socket<'a, G>> for Socket<'a, G> {
    fn from(proved: proved::Socket<'a, G>) -> Socket<'a, G> {
        Socket { proved, wakers: Wakers::default() }
    }
}

impl<'a, G> Deref for Socket<'a, G> {
    type Target = proved::Socket<'a, G>;

    #[inline(always)]
    fn deref(&self) -> &Self::Target {
        &self.proved
    }
}

impl<G> DerefMut for Socket<'_, G> {
    #[inline(always)]
    fn deref_mut(&mut self) -> &mut Self::Target {
        &mut self.proved
    }
}

/// Text goes into the transmit queue as by `send_slice`.
impl<G> fmt::Write for Socket<'_, G> {
    /// Refused where `may_send` is false, and where not all of the text fits; what fits then stays in the queue.
    fn write_str(&mut self, text: &str) -> fmt::Result {
        self.proved.write_str(text)
    }
}
