// Made from crates/two_hosts/src/wire.rt by rust/translate: change it there.
//! The wire between the hosts: it loses packets, and carries each of the others for a time of its own, so that some
//! overtake others.

use smoltcp_proved::kit::Vec;
use smoltcp_proved::kit::alloc::{AllocError, Global};
use smoltcp_proved::kit::collections::BTreeMap;
use smoltcp_proved::sockets::PollAt;
use smoltcp_proved::sockets::time::Instant;

// How many milliseconds a packet is on its way at least.
const SHORTEST: u32 = 10;

// A packet may take less than so many milliseconds longer.
const SPREAD: u32 = 30;

/// A wire, and the packets on it.
pub struct Wire {
    /// The packets on their way, by the moment at which they arrive, and in the order in which they were sent.
    packets: BTreeMap<(u32, u32), Vec<u8>>,
    /// How many were sent.
    sent: u32,
    /// How many of a hundred packets get lost.
    loss: u32,
    /// The state of the random numbers.
    state: u32,
}

impl Wire {
    /// An empty wire that loses so many of a hundred packets. The seed decides which, and how long the others take.
    pub fn new(alloc: Global, seed: u32, loss: u32) -> Wire {
        Wire { packets: BTreeMap::new(alloc), sent: 0, loss, state: seed }
    }

    /// When a packet that is sent now, in milliseconds, will arrive; none where it gets lost.
    pub fn arrival(&mut self, now: u32) -> Option<u32> {
        if self.random(100) < self.loss {
            return None;
        }
        Some(now.saturating_add(SHORTEST + self.random(SPREAD)))
    }

    /// Carries a packet that will arrive at this moment.
    pub fn carry(&mut self, packet: Vec<u8>, arrival: u32) -> Result<(), AllocError> {
        self.packets.insert((arrival, self.sent), packet)?;
        self.sent = self.sent.wrapping_add(1);
        Ok(())
    }

    /// Takes a packet that has arrived by now off the wire, if there is one: the earliest.
    pub fn arrived(&mut self, now: u32) -> Option<Vec<u8>> {
        let ((arrival, _), _) = self.packets.first_key_value()?;
        if *arrival > now {
            return None;
        }
        let (_, packet) = self.packets.pop_first()?;
        Some(packet)
    }

    /// When the next packet arrives.
    pub fn poll_at(&self) -> PollAt {
        match self.packets.first_key_value() {
            None => PollAt::Ingress,
            Some(((arrival, _), _)) => PollAt::Time(Instant::from_millis(i64::from(*arrival))),
        }
    }

    // A random number below `limit`, from a linear congruential generator modulo 2^32.
    fn random(&mut self, limit: u32) -> u32 {
        self.state = self.state.wrapping_mul(1_664_525).wrapping_add(1_013_904_223);
        (self.state >> 16) % limit
    }
}
