// Made from crates/net_host/src/filed.rt by rust/translate: change it there.
//! Places that are filed in an index under their keys.

use crate::kit::Vec;
use crate::proved::host_bounds::{Bounds, Marks};
use crate::proved::host_index::{Entry, Index};
use crate::proved::net_host::guard::GuardSettings;
use crate::proved::net_host::key::Keys;
use crate::proved::net_host::limits::Limits;
use crate::proved::net_host::refiling::refile;
use crate::proved::net_host::terms::Terms;

/// What has keys.
pub trait Keyed: crate::kit::Kept {
    /// Under which keys it is filed.
    fn keys(&self) -> Keys;

    // Whether something is there, which is filed at this place under its keys and no others. Where the answer is no, it
    // says nothing.
    fn is_filed(&self, index: &Index, place: usize) -> bool;
}

/// Places, and an index of them. One place at a time is lent, and may be changed; it is filed anew before the next use
/// of the index.
pub struct Filed<T: Keyed> {
    pub(crate) slots: Vec<T>,
    pub(crate) index: Index,
    // whether each place is filed, but for the one that was lent
    pub(crate) complete: bool,
    // the places where nothing is are marked, but for the one that was lent
    pub(crate) free: Marks,
    pub(crate) lent: Option<usize>,
    // before which moment each place need not be asked, under these terms; the least where it may have changed
    pub(crate) bounds: Bounds,
    pub(crate) terms: Terms,
    // whether the place that was lent is known to be filed and marked as the others
    pub(crate) settled: bool,
    // the places whose connection ended within `emit`, until their program lends them
    pub(crate) ended: Marks,
}

impl<T: Keyed> Filed<T> {
    /// Places without keys, each to be asked at once.
    pub(crate) fn of_free(
        slots: Vec<T>,
        index: Index,
        free: Marks,
        ended: Marks,
        bounds: Bounds,
    ) -> Filed<T> {
        Filed {
            slots,
            index,
            complete: true,
            free,
            lent: None,
            bounds,
            terms: Terms { mtu: 0, guards: Limits::of(&GuardSettings::off()) },
            settled: true,
            ended,
        }
    }

    /// The place that was lent, if one was, is filed as it is now.
    #[inline(always)]
    pub(crate) fn settle(&mut self) {
        if !self.settled {
            self.settle_lent();
        }
    }

    #[inline(never)]
    fn settle_lent(&mut self) {
        if self.is_lent_filed() {
            self.settled = true;
        } else {
            self.file_anew();
        }
    }

    /// Files the borrowed slot before slots under a key are looked for.
    pub(crate) fn settle_for(&mut self, key: Entry) {
        self.settle();
        self.index.seek(key);
    }

    /// The first place under this key, where that is known, once the place that was lent is filed.
    #[inline(always)]
    pub(crate) fn known_place(&mut self, key: Entry) -> Option<usize> {
        self.settle();
        self.index.known(key)
    }

    // Whether the place that was lent is filed under its keys, as mostly.
    fn is_lent_filed(&self) -> bool {
        match self.lent {
            Some(place) => is_filed_at(&self.slots, &self.index, place),
            None => true,
        }
    }

    #[inline(never)]
    fn file_anew(&mut self) {
        if let Some(place) = self.lent {
            let filed = refile_at(&self.slots, &mut self.index, &mut self.free, place);
            self.complete = both(self.complete, filed);
            self.lent = None;
            self.settled = true;
        }
    }

    /// This place may change: it will be filed as it is then, and is to be asked at once.
    #[inline(always)]
    pub fn lend(&mut self, place: usize) {
        if !self.is_lent(place) {
            self.lend_anew(place);
        }
        self.mark(place);
        self.settled = false;
    }

    // Whether the place is lent already.
    fn is_lent(&self, place: usize) -> bool {
        match &self.lent {
            Some(lent) => *lent == place,
            None => false,
        }
    }

    fn lend_anew(&mut self, place: usize) {
        self.settle();
        self.lent = lent_at(&self.slots, place);
        self.settled = false;
    }

    /// The place is to be asked at once.
    pub(crate) fn mark(&mut self, place: usize) {
        self.bounds.put_at_once(place);
    }

    /// This place is lent to its program: it may change, as by `lend`, and no end of its connection is told any more.
    #[inline(always)]
    pub fn lend_out(&mut self, place: usize) {
        self.lend(place);
        self.hear_end(place);
    }

    // Its program is told no more that its connection ended.
    #[inline(always)]
    fn hear_end(&mut self, place: usize) {
        if self.ended.is_on(place) {
            self.ended.take_off(place);
        }
    }

    /// The connection at this place ended.
    pub(crate) fn tell_end(&mut self, place: usize) {
        self.ended.put_on(place);
    }

    /// The places are asked under these terms from now on: all of them at once, where the terms are others than before.
    pub(crate) fn heed(&mut self, mtu: usize, guards: &Limits) {
        if !self.terms.are(mtu, guards) {
            self.bounds.reset();
            self.terms = Terms { mtu, guards: Limits::of(&guards.settings()) };
        }
    }

    /// What stands at this place, lent to its program: once it is given back, each other place is as it was.
    pub(crate) fn place_mut(&mut self, place: usize) -> Option<&mut T> {
        self.lend_out(place);
        self.slots.get_mut(place)
    }
}

fn both(a: bool, b: bool) -> bool {
    a && b
}

fn lent_at<T: Keyed>(slots: &[T], place: usize) -> Option<usize> {
    match slots.get(place) {
        Some(_) => Some(place),
        None => None,
    }
}

// Whether what stands at the place is filed.
fn is_filed_at<T: Keyed>(slots: &[T], index: &Index, place: usize) -> bool {
    match slots.get(place) {
        Some(slot) => slot.is_filed(index, place),
        None => true,
    }
}

// A place is marked where nothing is there.
fn note(free: &mut Marks, place: usize, is: bool) {
    if is {
        free.put_on(place);
    } else {
        free.take_off(place);
    }
}

fn refile_at<T: Keyed>(slots: &[T], index: &mut Index, free: &mut Marks, place: usize) -> bool {
    match slots.get(place) {
        Some(slot) => {
            let keys = slot.keys();
            note(free, place, keys.free);
            refile(index, place, &keys)
        }
        None => true,
    }
}
