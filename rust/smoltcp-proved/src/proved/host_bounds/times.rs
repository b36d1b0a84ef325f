// Made from crates/host_bounds/src/times.rt by rust/translate: change it there.
//! Deadlines of slots none of which is due at once: levels of bounds.

use crate::kit::Vec;
use crate::kit::alloc::{AllocError, Global};
use crate::proved::host_bounds::levels::{FAN_OUT, first_between, least_between, least_bounds, mend};

/// For each of many places a moment before which it need not be asked.
pub(crate) struct Times {
    places: Vec<i64>,
    // of each 16 places, none of which has a lower one
    blocks: crate::kit::Blocks,
    // of each 16 blocks
    groups: crate::kit::Blocks,
    // of all groups
    top: i64,
}

impl Times {
    /// Times of so many places, each of which is to be asked at once. They take 8.5 bytes a place.
    pub(crate) fn new(alloc: Global, count: usize) -> Result<Times, AllocError> {
        let blocks = count.div_ceil(FAN_OUT);
        Ok(Times {
            places: least_bounds(alloc, count)?,
            blocks: crate::kit::of_blocks(least_bounds(alloc, blocks))?,
            groups: crate::kit::of_blocks(least_bounds(alloc, blocks.div_ceil(FAN_OUT)))?,
            top: first_top(count),
        })
    }

    /// How many places there are.
    pub(crate) fn len(&self) -> usize {
        self.places.len()
    }

    /// Sets the bound of a place; of none where it is not there.
    pub(crate) fn set(&mut self, place: usize, bound: i64) {
        if place < self.places.len() && self.get(place) != bound {
            self.set_there(place, bound);
        }
    }

    fn set_there(&mut self, place: usize, bound: i64) {
        let was = self.places[place];
        self.places[place] = bound;
        let was = mend(&self.places, &mut self.blocks, place, was);
        // mostly no bound above it changes
        if self.blocks[place / FAN_OUT] == was {
            return;
        }
        let was = mend(&self.blocks, &mut self.groups, place / FAN_OUT, was);
        if self.groups[place / FAN_OUT / FAN_OUT] != was {
            self.top = least_between(&self.groups, 0, self.groups.len());
        }
    }

    /// The bound of a place; the least where it is not there.
    pub(crate) fn get(&self, place: usize) -> i64 {
        match self.places.get(place) {
            Some(bound) => *bound,
            None => i64::MIN,
        }
    }

    // The next place whose block may have one that wants to be asked by now: this one, or one before which none does.
    fn skip(&self, place: usize, now: i64) -> usize {
        let block = place / FAN_OUT;
        let group = block / FAN_OUT;
        if now < self.groups[group] {
            return (group + 1) * FAN_OUT * FAN_OUT;
        }
        if now < self.blocks[block] {
            let stop = self.blocks.len().min((group + 1) * FAN_OUT);
            return next_block(&self.places, &self.blocks, place, stop, now);
        }
        place
    }

    /// The first place that may want to be asked by now, from one on and before another.
    pub(crate) fn next(&self, start: usize, end: usize, now: i64) -> Option<usize> {
        let mut place = start;
        while place < end {
            let next = self.skip(place, now);
            if next == place {
                let stop = end.min((place / FAN_OUT + 1) * FAN_OUT);
                if let Some(found) = first_between(&self.places, place, stop, now) {
                    return Some(found);
                }
                place = stop;
            } else {
                place = next;
            }
        }
        None
    }

    /// The first moment at which a place wants to be asked; the latest where there is none.
    pub(crate) fn least(&self) -> i64 {
        self.top
    }
}

// The first of so many moments, all the least.
fn first_top(count: usize) -> i64 {
    if count == 0 { i64::MAX } else { i64::MIN }
}

// Where the next block of this place's group begins whose bound is reached by now, or the next group.
fn next_block(places: &[i64], blocks: &[i64], place: usize, stop: usize, now: i64) -> usize {
    let next = match first_between(blocks, place / FAN_OUT + 1, stop, now) {
        Some(block) => block,
        None => stop,
    };
    next.saturating_mul(FAN_OUT)
}
