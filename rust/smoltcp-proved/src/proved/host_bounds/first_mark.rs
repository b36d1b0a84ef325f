// Made from crates/host_bounds/src/first_mark.rt by rust/translate: change it there.
//! The first of the places that are marked, kept beside the marks, so that where one is marked none is searched for.

use crate::proved::host_bounds::marks::Marks;

// No place.
const NONE: usize = usize::MAX;

/// Before which place none is marked, and whether none behind it is.
#[derive(Debug, Clone, Copy, PartialEq, Eq)]
pub(crate) struct FirstMark {
    pub(crate) place: usize,
    pub(crate) alone: bool,
}

impl FirstMark {
    /// Of any marks.
    pub(crate) fn of_any() -> FirstMark {
        FirstMark { place: 0, alone: false }
    }

    /// A place, one of so many, is marked now.
    pub(crate) fn put_on(&mut self, place: usize, count: usize) {
        if place < self.place {
            self.alone = count <= self.place;
            self.place = place;
        } else if self.place < place {
            self.alone = false;
        }
    }

    /// A place, one of so many, is marked no longer.
    pub(crate) fn take_off(&mut self, marks: &Marks, place: usize, count: usize) {
        if place == self.place {
            self.place = if self.alone { NONE } else { mark_behind(marks, place, count) };
        }
    }

    /// The next place from one on that is marked, or one behind all.
    #[inline(always)]
    pub(crate) fn next(&self, marks: &Marks, start: usize) -> usize {
        if start <= self.place {
            return self.place;
        }
        if self.alone {
            return NONE;
        }
        marks.next(start)
    }
}

// The next place from one on that is marked, of so many.
#[inline(always)]
fn mark_behind(marks: &Marks, start: usize, count: usize) -> usize {
    let found = marks.next(start);
    if count <= found { NONE } else { found }
}
