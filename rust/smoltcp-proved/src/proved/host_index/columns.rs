// Made from crates/host_index/src/columns.rt by rust/translate: change it there.
//! The two keys of each place, in columns of 30 bytes a place together.

use crate::kit::alloc::{AllocError, Global};
use crate::kit::{Vec, vec};
use crate::proved::host_index::entry::{Entry, Which};

// The first part of no first key: an address of a group.
const NO_MAJOR: u128 = u128::MAX;

// The second part of no second key.
const NO_MINOR: u64 = u64::MAX;

// The first part of a second key is from here on within sixteen bits.
const LEAST: u128 = 65536;

// How many places there are at most, so that the number of each key fits 32 bits.
const MOST: usize = 1 << 30;

/// The keys of many places.
///
/// The key of number `2 * place` is the first of a place, whose second part fits 32 bits; the next number is the second
/// one's, whose first part is from 65536 to 131071. A key is free where none was put there.
pub(crate) struct Columns {
    pub(crate) majors: Vec<u128>,
    pub(crate) minors: Vec<u32>,
    // of second keys: the first part less 65536, and the second part
    pub(crate) doors: Vec<u16>,
    pub(crate) moments: Vec<u64>,
}

/// The number of a key.
pub(crate) fn number_of(which: Which, place: usize) -> usize {
    match which {
        Which::First => 2 * place,
        Which::Second => 2 * place + 1,
    }
}

impl Columns {
    /// Columns of so many places, or of as many as there are at most, where all is free.
    pub(crate) fn new(alloc: Global, count: usize) -> Result<Columns, AllocError> {
        let count = count.min(MOST);
        Ok(Columns {
            majors: vec![in alloc; NO_MAJOR; count]?,
            minors: vec![in alloc; 0u32; count]?,
            doors: vec![in alloc; 0u16; count]?,
            moments: vec![in alloc; NO_MINOR; count]?,
        })
    }

    /// How many places there are.
    pub(crate) fn len(&self) -> usize {
        self.majors.len()
    }

    fn first(&self, place: usize) -> Entry {
        if place >= self.majors.len() {
            return Entry { major: 0, minor: 0, place };
        }
        Entry { major: self.majors[place], minor: u64::from(self.minors[place]), place }
    }

    fn second(&self, place: usize) -> Entry {
        if place >= self.majors.len() {
            return Entry { major: LEAST, minor: 0, place };
        }
        Entry { major: LEAST + u128::from(self.doors[place]), minor: self.moments[place], place }
    }

    /// The place under the key of this number.
    pub(crate) fn get(&self, number: usize) -> Entry {
        if number % 2 == 0 { self.first(number / 2) } else { self.second(number / 2) }
    }

    /// Whether the second key of this place has the least first part, where it has one.
    pub(crate) fn is_least_door(&self, place: usize) -> bool {
        match self.doors.get(place) {
            Some(door) => *door == 0,
            None => false,
        }
    }

    /// Whether this key is there. Where the answer is no, it says nothing.
    pub(crate) fn has(&self, which: Which, entry: Entry) -> bool {
        match which {
            Which::First => self.has_first(entry),
            Which::Second => self.has_second(entry),
        }
    }

    fn has_first(&self, entry: Entry) -> bool {
        entry.place < self.majors.len()
            && entry.major != NO_MAJOR
            && self.majors[entry.place] == entry.major
            && u64::from(self.minors[entry.place]) == entry.minor
    }

    fn has_second(&self, entry: Entry) -> bool {
        entry.place < self.majors.len()
            && entry.minor != NO_MINOR
            && self.moments[entry.place] == entry.minor
            && LEAST + u128::from(self.doors[entry.place]) == entry.major
    }

    /// Whether the key of this number is free, or of no place.
    pub(crate) fn is_free(&self, number: usize) -> bool {
        if number % 2 == 0 {
            self.majors.len() <= number / 2 || self.majors[number / 2] == NO_MAJOR
        } else {
            self.majors.len() <= number / 2 || self.moments[number / 2] == NO_MINOR
        }
    }

    /// Puts a key of a place where it is free. Whether it was, and the key is one that fits there.
    pub(crate) fn put(&mut self, which: Which, entry: Entry) -> bool {
        if self.len() <= entry.place {
            return false;
        }
        match which {
            Which::First => self.put_first(entry),
            Which::Second => self.put_second(entry),
        }
    }

    fn put_first(&mut self, entry: Entry) -> bool {
        let Ok(minor) = u32::try_from(entry.minor) else {
            return false;
        };
        if self.majors[entry.place] != NO_MAJOR || entry.major == NO_MAJOR {
            return false;
        }
        self.majors[entry.place] = entry.major;
        self.minors[entry.place] = minor;
        true
    }

    fn put_second(&mut self, entry: Entry) -> bool {
        if entry.major < LEAST || 2 * LEAST <= entry.major || entry.minor == NO_MINOR {
            return false;
        }
        if self.moments[entry.place] != NO_MINOR {
            return false;
        }
        self.doors[entry.place] = (entry.major - LEAST) as u16;
        self.moments[entry.place] = entry.minor;
        true
    }

    /// The key of this number is free.
    pub(crate) fn free(&mut self, number: usize) {
        let place = number / 2;
        if self.len() <= place {
            return;
        }
        if number % 2 == 0 {
            self.majors[place] = NO_MAJOR;
        } else {
            self.moments[place] = NO_MINOR;
        }
    }
}
