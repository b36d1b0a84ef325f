//! A device that loses, alters and holds back packets, for tests.
use super::{Device, DeviceCapabilities, PacketMeta, RxToken, TxToken};
use crate::proved::net_base::{Duration, Instant};
use core::cell::RefCell;

// The longest packet of such a device, in bytes.
const LONGEST: usize = 1536;

/// What is done to packets, and what the random numbers have come to.
#[derive(Debug, Clone, Copy)]
struct State {
    // xorshift of 32 bits; never 0
    word: u32,
    corrupt_chance: u8,
    drop_chance: u8,
    max_packet_size: usize,
    // packets an interval; 0 for any number
    max_rx_rate: u64,
    max_tx_rate: u64,
    interval: Duration,
    filled_at: Instant,
    rx_left: u64,
    tx_left: u64,
}

impl State {
    fn next(&mut self) -> u32 {
        let mut word = self.word;
        word ^= word << 13;
        word ^= word >> 17;
        word ^= word << 5;
        self.word = word;
        word
    }

    fn happens(&mut self, percent: u8) -> bool {
        self.next() % 100 < u32::from(percent)
    }

    // Flips a bit.
    fn corrupt(&mut self, packet: &mut [u8]) {
        if !packet.is_empty() {
            let place = self.next() as usize % packet.len();
            packet[place] ^= 1 << (self.next() % 8);
        }
    }

    fn refill(&mut self, now: Instant) {
        if self.interval == Duration::ZERO || now - self.filled_at >= self.interval {
            (self.filled_at, self.rx_left, self.tx_left) = (now, self.max_rx_rate, self.max_tx_rate);
        }
    }

    // Whether a packet may pass, which then counts.
    fn may_pass(&mut self, now: Instant, arrives: bool) -> bool {
        self.refill(now);
        let (most, left) = match arrives {
            true => (self.max_rx_rate, &mut self.rx_left),
            false => (self.max_tx_rate, &mut self.tx_left),
        };
        if most > 0 {
            let some = *left > 0;
            *left = left.saturating_sub(1);
            return some;
        }
        true
    }

    // Whether a packet of this length that may pass is lost after all.
    fn loses(&mut self, len: usize) -> bool {
        self.happens(self.drop_chance)
            || (self.max_packet_size > 0 && len > self.max_packet_size)
            || len > LONGEST
    }
}

/// A device around another, which loses, alters and holds back packets, as random numbers say. Its MTU is at most 1536
/// bytes.
#[derive(Debug)]
pub struct FaultInjector<D: Device> {
    inner: D,
    state: RefCell<State>,
}

impl<D: Device> FaultInjector<D> {
    /// A device that does nothing yet. Two of one seed do alike.
    pub fn new(inner: D, seed: u32) -> FaultInjector<D> {
        let state = State {
            word: seed.max(1),
            corrupt_chance: 0,
            drop_chance: 0,
            max_packet_size: 0,
            max_rx_rate: 0,
            max_tx_rate: 0,
            interval: Duration::ZERO,
            filled_at: Instant::ZERO,
            rx_left: 0,
            tx_left: 0,
        };
        FaultInjector { inner, state: RefCell::new(state) }
    }

    /// The device inside, alone.
    pub fn into_inner(self) -> D {
        self.inner
    }

    /// Of how many in 100 packets a bit is flipped.
    pub fn corrupt_chance(&self) -> u8 {
        self.state.borrow().corrupt_chance
    }

    /// How many in 100 packets are lost.
    pub fn drop_chance(&self) -> u8 {
        self.state.borrow().drop_chance
    }

    /// Longer packets are lost, in bytes; 0 for none.
    pub fn max_packet_size(&self) -> usize {
        self.state.borrow().max_packet_size
    }

    /// How many packets are sent in an interval; 0 for any number.
    pub fn max_tx_rate(&self) -> u64 {
        self.state.borrow().max_tx_rate
    }

    /// How many packets arrive in an interval; 0 for any number.
    pub fn max_rx_rate(&self) -> u64 {
        self.state.borrow().max_rx_rate
    }

    /// The interval of the two rates.
    pub fn bucket_interval(&self) -> Duration {
        self.state.borrow().interval
    }

    /// Sets of how many in 100 packets a bit is flipped. Panics above 100.
    pub fn set_corrupt_chance(&mut self, pct: u8) {
        assert!(pct <= 100, "percentage out of range");
        self.state.get_mut().corrupt_chance = pct;
    }

    /// Sets how many in 100 packets are lost. Panics above 100.
    pub fn set_drop_chance(&mut self, pct: u8) {
        assert!(pct <= 100, "percentage out of range");
        self.state.get_mut().drop_chance = pct;
    }

    /// Sets which packets are too long, in bytes; 0 for none.
    pub fn set_max_packet_size(&mut self, size: usize) {
        self.state.get_mut().max_packet_size = size;
    }

    /// Sets how many packets are sent in an interval; 0 for any number.
    pub fn set_max_tx_rate(&mut self, rate: u64) {
        let state = self.state.get_mut();
        (state.max_tx_rate, state.tx_left) = (rate, rate);
    }

    /// Sets how many packets arrive in an interval; 0 for any number.
    pub fn set_max_rx_rate(&mut self, rate: u64) {
        let state = self.state.get_mut();
        (state.max_rx_rate, state.rx_left) = (rate, rate);
    }

    /// Sets the interval of the two rates.
    pub fn set_bucket_interval(&mut self, interval: Duration) {
        self.state.get_mut().interval = interval;
    }
}

impl<D: Device> Device for FaultInjector<D> {
    type RxToken<'a>
        = FaultyRx<'a>
    where
        Self: 'a;
    type TxToken<'a>
        = FaultyTx<'a, D::TxToken<'a>>
    where
        Self: 'a;

    fn receive(&mut self, timestamp: Instant) -> Option<(Self::RxToken<'_>, Self::TxToken<'_>)> {
        let state = &self.state;
        let (rx, tx) = self.inner.receive(timestamp)?;
        let mut packet = [0; LONGEST];
        let meta = rx.meta();
        let len = rx.consume(|bytes| {
            let lost = !state.borrow_mut().may_pass(timestamp, true) || state.borrow_mut().loses(bytes.len());
            let len = if lost { 0 } else { bytes.len() };
            packet[..len].copy_from_slice(&bytes[..len]);
            len
        });
        Some((FaultyRx { packet, len, state, meta }, FaultyTx { token: tx, state, timestamp }))
    }

    fn transmit(&mut self, timestamp: Instant) -> Option<Self::TxToken<'_>> {
        let state = &self.state;
        let token = self.inner.transmit(timestamp)?;
        Some(FaultyTx { token, state, timestamp })
    }

    fn capabilities(&self) -> DeviceCapabilities {
        let mut capabilities = self.inner.capabilities();
        capabilities.max_transmission_unit = capabilities.max_transmission_unit.min(LONGEST);
        capabilities
    }
}

/// A packet of a [`FaultInjector`]; one that is lost has no bytes.
#[derive(Debug)]
pub struct FaultyRx<'a> {
    packet: [u8; LONGEST],
    len: usize,
    state: &'a RefCell<State>,
    meta: PacketMeta,
}

impl RxToken for FaultyRx<'_> {
    fn consume<R, F: FnOnce(&[u8]) -> R>(mut self, f: F) -> R {
        let chance = self.state.borrow().corrupt_chance;
        if self.state.borrow_mut().happens(chance) {
            self.state.borrow_mut().corrupt(&mut self.packet[..self.len]);
        }
        f(&self.packet[..self.len])
    }

    fn meta(&self) -> PacketMeta {
        self.meta
    }
}

/// Room for a packet of a [`FaultInjector`], of at most 1536 bytes.
#[derive(Debug)]
pub struct FaultyTx<'a, T> {
    token: T,
    state: &'a RefCell<State>,
    timestamp: Instant,
}

impl<T: TxToken> TxToken for FaultyTx<'_, T> {
    fn consume<R, F: FnOnce(&mut [u8]) -> R>(self, len: usize, f: F) -> R {
        let lost =
            !self.state.borrow_mut().may_pass(self.timestamp, false) || self.state.borrow_mut().loses(len);
        if lost {
            return f(&mut [0; LONGEST][..len]);
        }
        self.token.consume(len, |packet| {
            let result = f(packet);
            let chance = self.state.borrow().corrupt_chance;
            if self.state.borrow_mut().happens(chance) {
                self.state.borrow_mut().corrupt(packet);
            }
            result
        })
    }

    fn set_meta(&mut self, meta: PacketMeta) {
        self.token.set_meta(meta);
    }
}
