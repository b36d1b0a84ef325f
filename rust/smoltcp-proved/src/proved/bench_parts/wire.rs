// Made from crates/bench_parts/src/wire.rt by rust/translate: change it there.
//! The way of packets from one host to another: some are lost, come twice or late.

use crate::kit::Vec;
use crate::kit::alloc::{AllocError, Global};
use crate::proved::bench_parts::random::Random;
use core::mem;

/// How often a wire does what to a packet, of a thousand packets.
#[derive(Debug, Clone, Copy)]
pub struct Faults {
    /// It is lost.
    pub lost: u32,
    /// It comes behind those of the next moment.
    pub late: u32,
    /// It comes twice.
    pub twice: u32,
    /// A byte of it is another.
    pub flipped: u32,
}

/// What a wire does that does nothing to a packet.
pub const CLEAN: Faults = Faults { lost: 0, late: 0, twice: 0, flipped: 0 };

/// What happens to a packet.
#[derive(Debug, Clone, Copy, PartialEq, Eq)]
pub enum Fate {
    Lost,
    Late,
    Twice,
    Flipped,
    Arrives,
}

/// One direction of a wire.
pub struct Wire {
    alloc: Global,
    faults: Faults,
    // packets that come late
    late: Vec<Vec<u8>>,
}

impl Wire {
    /// An empty wire.
    pub fn new(alloc: Global, faults: Faults) -> Wire {
        Wire { alloc, faults, late: Vec::new(alloc) }
    }

    /// What happens to the next packet.
    pub fn fate(&self, random: &mut Random) -> Fate {
        let Faults { lost, late, twice, flipped } = self.faults;
        if lost == 0 && late == 0 && twice == 0 && flipped == 0 {
            Fate::Arrives
        } else if random.happens(lost) {
            Fate::Lost
        } else if random.happens(late) {
            Fate::Late
        } else if random.happens(twice) {
            Fate::Twice
        } else if random.happens(flipped) {
            Fate::Flipped
        } else {
            Fate::Arrives
        }
    }

    /// Holds a packet back.
    pub fn hold(&mut self, packet: Vec<u8>) -> Result<(), AllocError> {
        self.late.push(packet)?;
        Ok(())
    }

    /// The packets that were held back; none is any more.
    pub fn held(&mut self) -> Vec<Vec<u8>> {
        let empty = Vec::new(self.alloc);
        mem::replace(&mut self.late, empty)
    }
}

/// Makes one byte of a packet another.
pub fn flip(packet: &mut Vec<u8>, random: &mut Random) {
    let len = packet.len();
    if len == 0 || len > 0xffff_ffff {
        return;
    }
    let at = random.below(len as u32) as usize;
    let byte = &mut packet.as_mut_slice()[at];
    *byte ^= 0x40;
}
