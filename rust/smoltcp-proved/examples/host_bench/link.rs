// Made from crates/host_bench/src/link.rt by rust/translate: change it there.
//! A link that loses packets, and delays the others.

use crate::draw::Draw;
use core::mem;
use smoltcp_proved::kit::Vec;
use smoltcp_proved::kit::alloc::{AllocError, Global};

/// One direction of a link: a packet arrives so many milliseconds later, or never.
pub struct Link {
    alloc: Global,
    // of a thousand packets, so many are lost
    lost: u32,
    // the packets that arrive at each of the milliseconds to come
    lanes: Vec<Vec<Vec<u8>>>,
    at: usize,
}

impl Link {
    /// An empty link.
    pub fn new(alloc: Global, lost: u32, delay: usize) -> Result<Link, AllocError> {
        let mut lanes = Vec::new(alloc);
        for _ in 0..=delay.min(1000) {
            lanes.push(Vec::new(alloc))?;
        }
        Ok(Link { alloc, lost, lanes, at: 0 })
    }

    /// Sends a packet.
    pub fn send(&mut self, packet: &[u8], draw: &mut Draw) -> Result<(), AllocError> {
        if draw.below(1000) < self.lost {
            return Ok(());
        }
        let packet = Vec::from_slice(self.alloc, packet)?;
        let last = self.before();
        if let Some(lane) = self.lanes.get_mut(last) {
            lane.push(packet)?;
        }
        Ok(())
    }

    // Where the packets stand that arrive last.
    fn before(&self) -> usize {
        if self.at == 0 { self.lanes.len().saturating_sub(1) } else { self.at - 1 }
    }

    /// A millisecond goes by: the packets that arrive.
    pub fn arrived(&mut self) -> Vec<Vec<u8>> {
        let empty = Vec::new(self.alloc);
        let at = self.at;
        let next = at.wrapping_add(1);
        self.at = if next < self.lanes.len() { next } else { 0 };
        match self.lanes.get_mut(at) {
            Some(lane) => mem::replace(lane, empty),
            None => empty,
        }
    }
}
