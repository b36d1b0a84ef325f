// Made from crates/host_index/src/guesses.rt by rust/translate: change it there.
//! Where keys are looked for first.
use crate::proved::host_index::entry::{Entry, Which};

// So far before the place of the order where the last one went: first keys go as their connections came, and second
// ones of the least door in no order.
const BEFORE_FIRST: usize = 3;

const BEFORE_OPEN: usize = 16;

// The first part of second keys of the least door.
const LEAST: u128 = 65536;

/// Places of the order, which are looked at: one that is wrong costs a search and no more.
///
/// Second keys of the least door are those of connections that are open, and stand before those of other doors, which
/// rest: these come behind the last one and go from the first one on.
#[derive(Debug, Clone, Copy, PartialEq, Eq)]
pub(crate) struct Guesses {
    // before where a first key went, and one that is open
    first: usize,
    open: usize,
    /// Where those that rest begin.
    pub(crate) rests: usize,
    // behind the one that came to rest last
    end: usize,
}

impl Guesses {
    /// Nothing is known.
    pub(crate) fn new() -> Guesses {
        Guesses { first: 0, open: 0, rests: 0, end: 0 }
    }

    /// Where an entry may belong, in an order of this length: first keys come behind all.
    pub(crate) fn to_add(&self, which: Which, entry: Entry, len: usize) -> usize {
        match which {
            Which::First => len,
            Which::Second => {
                if entry.major == LEAST {
                    self.rests
                } else {
                    self.end
                }
            }
        }
    }

    /// From where on a key is looked for that goes.
    pub(crate) fn to_remove(&self, which: Which, opens: bool) -> usize {
        match which {
            Which::First => self.first,
            Which::Second => {
                if opens {
                    self.open
                } else {
                    self.rests
                }
            }
        }
    }

    /// An entry was added at this place.
    pub(crate) fn note_added(&mut self, which: Which, entry: Entry, place: usize) {
        let opens = which == Which::Second && entry.major == LEAST;
        if which == Which::Second && !opens {
            self.end = place.saturating_add(1);
            return;
        }
        if place < self.rests || opens && place == self.rests {
            self.rests = self.rests.saturating_add(1);
        }
        if place < self.end || opens && place == self.end {
            self.end = self.end.saturating_add(1);
        }
    }

    /// One went from this place.
    pub(crate) fn note_removed(&mut self, which: Which, opens: bool, place: usize) {
        if place < self.end {
            self.end -= 1;
        }
        match which {
            Which::First => self.first = place.saturating_sub(BEFORE_FIRST),
            Which::Second => {
                if opens {
                    self.open = place.saturating_sub(BEFORE_OPEN);
                } else {
                    self.rests = place;
                    return;
                }
            }
        }
        if place < self.rests {
            self.rests -= 1;
        }
    }
}
