// Made from crates/net_host/src/interface.rt by rust/translate: change it there.
//! An interface: what arrives goes to the sockets that it is for, and what they have to say goes out.

use crate::kit::Vec;
use crate::proved::host_context::Words;
use crate::proved::host_cookies::SynCookies;
use crate::proved::host_groups::{Groups, MulticastError};
use crate::proved::net_host::cidr::IpCidr;
use crate::proved::net_host::counters::Counters;
use crate::proved::net_host::environment::Environment;
use crate::proved::net_host::guard::GuardSettings;
use crate::proved::net_host::inner::InterfaceInner;
use crate::proved::net_host::limit::Limit;
use crate::proved::net_host::limits::Limits;
use crate::proved::net_host::polling::earliest;
use crate::proved::net_host::replies::LONGEST_REPLY;
use crate::proved::net_host::set::SocketSet;
use crate::proved::net_host::speak::speak;
use crate::proved::net_host::wire::TooShort;
use crate::sockets::PollAt;
use crate::sockets::sock_tcp::TsvalSource;
use crate::sockets::time::Instant;
use crate::sockets::wire::{ChecksumCapabilities, IpAddress};

/// An interface with one or several addresses, on which packets arrive and go out. As smoltcp's.
///
/// `W` is the source of random words: [`Secret`](crate::proved::net_host::Secret) on a network, `Seeded` in tests.
pub struct Interface<W> {
    pub(crate) inner: InterfaceInner<W>,
    // the place of the socket whose turn it is
    pub(crate) turn: usize,
    pub(crate) resets: Limit,
    // ICMP errors that go out
    pub(crate) errors: Limit,
    pub(crate) counters: Counters,
    pub(crate) guards: Limits,
    // where SYNs may be answered without a socket
    pub(crate) cookies: Option<SynCookies>,
    pub(crate) groups: Groups,
    // how many connections a source may have; 0 where any number
    pub(crate) most_of_source: usize,
}

impl<W: Words> Interface<W> {
    /// Takes an IP packet that arrives at this moment, and answers how long the packet is that answers it, at the
    /// beginning of `reply`; 0 where none does.
    ///
    /// The first row that fits: a packet that is malformed or a fragment, or has a source that no single other host
    /// has, or another destination than an address of the interface, a broadcast or a group that was joined, is dropped
    /// and counted. Hop-by-hop, destination and routing headers of IPv6 are passed over, four at most (RFC 8200,
    /// section 4); of a routing header with segments left the packet is dropped. Of any other packet each raw socket
    /// that accepts it takes a copy. Then what goes to a broadcast or a group and carries no UDP datagram is dropped,
    /// and another protocol than TCP, UDP and ICMP, of which the sender is told (RFC 1122, section 3.2.2.1; RFC 4443,
    /// section 3.4), but not of 59 over IPv6, behind which nothing stands (RFC 8200, section 4.7). A segment goes to
    /// the first connection that accepts it, in the order of handles, else to the first socket that listens and accepts
    /// it. With SYN cookies (RFC 4987, section 3.6) a SYN for which only a socket that is kept listens is answered, and
    /// no socket takes it; the acknowledgement of that answer, within 64 seconds, takes a socket, which hears the SYN
    /// as it was told again, dispatches its SYN|ACK into nothing, as that has gone out, and then hears the
    /// acknowledgement, without the octet of a keep-alive (RFC 9293, section 3.8.4). The SYN has its window scale, SACK
    /// permission and timestamp where the answer had a timestamp, in which they come back (RFC 7323). None is believed
    /// once no SYN was answered so for 128 seconds. A SYN of a source that has as many connections as
    /// `set_most_of_source` allows is dropped, and so is what a cookie would open. A segment for no socket is answered
    /// by an RST (RFC 9293, section 3.10.7.1), unless it is one. Of RSTs at most `ANSWERS_A_SECOND` go out to a source
    /// in a second, with those of sockets whose handshake is not over (section 3.10.7.4). A datagram goes to the first
    /// UDP socket that accepts it; of one that none does the sender is told by an ICMP error (RFC 1122, section
    /// 4.1.3.1; RFC 4443, section 3.1). Errors go out for packets to an own address that no raw socket takes, at most
    /// `ANSWERS_A_SECOND` to a source in a second, and fit the MTU. Some sources share a limit, by a key
    /// (`set_answer_key`). Of an ICMP message each ICMP socket that accepts it takes a copy, and an echo request is
    /// answered (RFC 792; RFC 4443, section 4.2), by at most as many bytes as the MTU. No other socket changes.
    ///
    /// A TCP socket whose place is not `touched` afterwards is as it was, and was not touched before.
    ///
    /// # Errors
    /// `TooShort` where `reply` is shorter than the MTU, or than the 100 bytes of the longest reply of a TCP socket;
    /// nothing happens then.
    pub fn receive<G: TsvalSource>(
        &mut self,
        sockets: &mut SocketSet<'_, G>,
        now: Instant,
        packet: &[u8],
        reply: &mut [u8],
    ) -> Result<usize, TooShort> {
        if reply.len() < self.inner.environment.mtu.max(LONGEST_REPLY) {
            return Err(TooShort);
        }
        Ok(self.receive_at(sockets, now, packet, reply))
    }

    pub(crate) fn receive_at<G: TsvalSource>(
        &mut self,
        sockets: &mut SocketSet<'_, G>,
        now: Instant,
        packet: &[u8],
        reply: &mut [u8],
    ) -> usize {
        self.set_now(now);
        self.take_packet(sockets, packet, reply)
    }

    fn set_now(&mut self, now: Instant) {
        self.inner.environment.set_now(now);
    }

    /// Writes the next packet of a socket that is due at this moment into `out`, and answers its length; 0 where no
    /// socket is due. The turn goes round: it begins behind the socket that spoke last.
    ///
    /// Before its turn the guard of a TCP socket looks at it, as `Guard::watch`. Where the answer is 0, the guard of
    /// each has looked at it as it is, so that what only the peer can end comes to its end in time, and no socket is
    /// `touched`. A socket that was not lent, took no segment and asks for a later moment is not asked, so a call costs
    /// no more for it; after another MTU or other guards each is asked once. A socket that is due and has nothing to
    /// say after all has had its turn.
    ///
    /// Where a connection ends, by a timer, its guard or an address that was lost, its place is among those of `ended`
    /// afterwards; a place that is not has the state that it had.
    ///
    /// No packet is longer than the MTU, where less than 576 counts as that over IPv6: a longer one is dropped, as by
    /// smoltcp's interface, and counted as `too_long`.
    ///
    /// # Errors
    /// `TooShort` where `out` is too short for the packet: its socket offers it again. An `out` of the MTU's length,
    /// and of 576 bytes or more, never is.
    pub fn emit<G: TsvalSource>(
        &mut self,
        sockets: &mut SocketSet<'_, G>,
        now: Instant,
        out: &mut [u8],
    ) -> Result<usize, TooShort> {
        self.emit_at(sockets, now, out)
    }

    fn emit_at<G: TsvalSource>(
        &mut self,
        sockets: &mut SocketSet<'_, G>,
        now: Instant,
        out: &mut [u8],
    ) -> Result<usize, TooShort> {
        self.set_now(now);
        sockets.heed(self.inner.environment.mtu, &self.guards);
        speak(sockets, &mut self.turn, &mut self.counters, &self.inner, out)
    }
}

// Words, and when to look again.
impl<W: Words> Interface<W> {
    /// The next random word, which no socket draws any more.
    pub fn rand_u32(&mut self) -> u32 {
        self.inner.words.next()
    }

    /// When `emit` next has something to do: the earliest moment at which a socket is due, as its guard allows. The
    /// moment is that of the last `emit` or `receive`, and the guards are as they were left there: so ask after an
    /// `emit` that answered 0. The answer lies after its moment then, and no other socket is asked than the one that it
    /// comes from; else it may take a walk.
    pub fn poll_at<G: TsvalSource>(&self, sockets: &SocketSet<'_, G>) -> PollAt {
        earliest(sockets, &self.inner)
    }
}

impl<W> Interface<W> {
    /// An interface with these addresses, at moment 0. Its MTU is 1500 bytes, and all checksums are computed here. The
    /// key of its answers is a constant: set a random one by `set_answer_key`.
    pub fn new(addresses: Vec<IpCidr>, words: W) -> Interface<W> {
        Interface {
            inner: InterfaceInner { environment: Environment::new(addresses), words },
            turn: 0,
            resets: Limit::new(),
            errors: Limit::new(),
            counters: Counters::default(),
            guards: Limits::of(&GuardSettings::new()),
            cookies: None,
            groups: Groups::none(),
            most_of_source: 0,
        }
    }

    /// The moment of the last packet that was taken or asked for; 0 before the first.
    pub fn now(&self) -> Instant {
        self.inner.environment.now
    }

    /// The largest IP packet, in bytes.
    pub fn ip_mtu(&self) -> usize {
        self.inner.environment.mtu
    }

    /// The own address from which a packet to this one is sent: of the network that has it, else the first of its
    /// version; none where there is none. As smoltcp's.
    pub fn get_source_address(&self, dst: &IpAddress) -> Option<IpAddress> {
        self.inner.environment.source(dst)
    }

    /// The context of the sockets' calls. Once it is given back, all else is as it was.
    pub fn context(&mut self) -> &mut InterfaceInner<W> {
        &mut self.inner
    }

    /// How many packets were dropped, by their reasons.
    pub fn counters(&self) -> Counters {
        self.counters
    }

    /// Sets how long a peer may leave a TCP connection of a set waiting: from the next `emit` on, for each of its
    /// sockets. In a new interface as `GuardSettings::new`.
    pub fn set_guards(&mut self, guards: GuardSettings) {
        self.guards = Limits::of(&guards);
    }

    /// Sets whether SYNs may be answered without a socket, and how: from the next packet on. A new interface does not.
    /// Of answers that went out before none is believed.
    ///
    /// The answer has a timestamp where the SYN has one and the listener is to send them (`set_tsval_source`). Its five
    /// lowest bits tell what the SYN offers, so it may be 31 ticks of the clock old, and the answer tells the window
    /// scale and SACK as that of a socket would. Without timestamps a connection by cookie has neither. A peer that
    /// changes the bits is not believed. Sockets that listen on one port have receive buffers of one size, as the
    /// window scale was told of the one that listened first.
    pub fn set_syn_cookies(&mut self, cookies: Option<SynCookies>) {
        self.cookies = cookies;
    }

    /// Sets how many TCP connections a source may have: an address of IPv4, or 64 bits of one of IPv6 (in `::/64` each
    /// address); 0, as in a new interface, allows any number. Those in TIME-WAIT and those that were opened here count,
    /// too. A SYN that would begin one more is dropped and counted as `too_many`, and so is what a SYN cookie would
    /// open.
    ///
    /// It costs a search of the index, however many there are.
    pub fn set_most_of_source(&mut self, most: usize) {
        self.most_of_source = most;
    }

    /// Sets the key by which sources have buckets of what is answered by RSTs and ICMP errors. In a new interface it is
    /// a constant: set a random one, which nobody can guess.
    pub fn set_answer_key(&mut self, key: u64) {
        self.resets.set_key(key);
        self.errors.set_key(key);
    }

    /// Sets the largest IP packet, in bytes: 68 to 65535, and the nearest of these for any other. Over IPv6 less than
    /// 576 counts as that (RFC 8200, section 5: its links carry 1280).
    pub fn set_mtu(&mut self, mtu: usize) {
        self.inner.environment.set_mtu(mtu);
    }

    /// Sets which checksums are computed and tested here, and which by the device.
    pub fn set_checksums(&mut self, checksums: ChecksumCapabilities) {
        self.inner.environment.checksums = checksums;
    }
}

// Groups.
impl<W> Interface<W> {
    /// Joins a group: packets to it are taken then, for UDP and raw sockets. Nobody is told of it by IGMP or MLD.
    ///
    /// # Errors
    /// `Unaddressable` where the address is none of a group, `GroupTableFull` where four others were joined.
    pub fn join_multicast_group(&mut self, group: IpAddress) -> Result<(), MulticastError> {
        self.groups.join(group)
    }

    /// Leaves a group, if it was joined.
    ///
    /// # Errors
    /// `Unaddressable` where the address is none of a group.
    pub fn leave_multicast_group(&mut self, group: IpAddress) -> Result<(), MulticastError> {
        self.groups.leave(&group)
    }

    /// Whether a group was joined.
    pub fn has_multicast_group(&self, group: IpAddress) -> bool {
        self.groups.has(&group)
    }
}
