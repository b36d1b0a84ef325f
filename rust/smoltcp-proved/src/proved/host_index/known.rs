// Made from crates/host_index/src/known.rt by rust/translate: change it there.
//! First places under keys that were sought.

use crate::kit::alloc::{AllocError, Global};
use crate::kit::{Vec, vec};
use crate::proved::host_index::entry::Entry;

// How many keys are known at once.
const COUNT: usize = crate::kit::KNOWN;

// What stands for no place: no place is so far on.
const NO_PLACE: u32 = u32::MAX;

/// For some keys a place each. Two keys may want the same room, and the later one has it: a peer who chooses his keys
/// so has each of them searched for, as all are without this.
pub(crate) struct Known {
    pub(crate) places: Vec<u32>,
}

// The room of a key.
fn slot_of(key: Entry) -> usize {
    let major = (key.major % 256) as usize;
    let high = (key.minor / 65536 % 256) as usize;
    let low = (key.minor % 256) as usize;
    (major + high + low) % COUNT
}

impl Known {
    /// No key is known.
    pub(crate) fn new(alloc: Global) -> Result<Known, AllocError> {
        Ok(Known { places: vec![in alloc; NO_PLACE; COUNT]? })
    }

    /// The place of this key, or of one that has its room, or one that is no place.
    pub(crate) fn get(&self, key: Entry) -> usize {
        match self.places.get(slot_of(key)) {
            Some(place) => *place as usize,
            None => NO_PLACE as usize,
        }
    }

    /// This place is the key's, if it is given.
    pub(crate) fn learn(&mut self, key: Entry, place: Option<u32>) {
        if let Some(place) = place {
            self.put(key, place);
        }
    }

    fn put(&mut self, key: Entry, place: u32) {
        if let Some(known) = self.places.get_mut(slot_of(key)) {
            *known = place;
        }
    }

    /// Neither the key nor another that has its room has a place.
    pub(crate) fn forget(&mut self, key: Entry) {
        self.put(key, NO_PLACE);
    }
}
