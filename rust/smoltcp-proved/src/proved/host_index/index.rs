// Made from crates/host_index/src/index.rt by rust/translate: change it there.
//! An index: places under keys, in order.

use crate::kit::Vec;
use crate::kit::alloc::{AllocError, Global};
use crate::proved::host_index::columns::{Columns, number_of};
use crate::proved::host_index::entry::{Entry, Which, entry_of, is_entry, is_key_less, is_less, least_key};
use crate::proved::host_index::guesses::Guesses;
use crate::proved::host_index::known::Known;

// Among how many numbers one is looked for that goes.
const WINDOW: usize = 32;

/// Entries in order, of keys and of places under a key: of each place at most one first and one second key.
///
/// An entry takes four bytes beside its columns, so that little is moved where one is added or removed.
pub struct Index {
    columns: Columns,
    // the numbers of the keys
    order: Vec<u32>,
    // the key that was sought last, and where its entries begin
    sought: Entry,
    begins: usize,
    // first places under keys that were sought or added: a place that is known is mostly the right one
    known: Known,
    guesses: Guesses,
}

// The place that has this key as its first one, where the key has this number.
fn place_under(columns: &Columns, number: u32, key: Entry) -> Option<u32> {
    let entry = columns.get(number as usize);
    if number % 2 == 0 && entry.major == key.major && entry.minor == key.minor {
        Some(number / 2)
    } else {
        None
    }
}

// The first place under the key, where the entries of the key begin here and it is the place's first key.
fn first_under(columns: &Columns, order: &[u32], key: Entry, begins: usize) -> Option<u32> {
    match order.get(begins) {
        Some(number) if key.place == 0 => place_under(columns, *number, key),
        _ => None,
    }
}

// The entry at this place of the order.
fn entry_at(columns: &Columns, order: &[u32], place: usize) -> Entry {
    columns.get(order[place] as usize)
}

// Where the entries under a key begin, which is from one place of the order on and not behind another. Not inlined, as
// three ways lead here that mostly spare it.
#[inline(never)]
fn lower_between(columns: &Columns, order: &[u32], key: Entry, from: usize, end: usize) -> usize {
    let mut low = from;
    let mut high = end;
    while low < high {
        let middle = low + (high - low) / 2;
        if is_less(entry_at(columns, order, middle), key) {
            low = middle + 1;
        } else {
            high = middle;
        }
    }
    low
}

// Whether an entry stands before the key, where one is at this place of the order. Inlined, as a call takes as long as
// the look.
#[inline(always)]
fn is_before_at(columns: &Columns, order: &[u32], place: usize, key: Entry) -> bool {
    is_less(entry_at(columns, order, place), key)
}

// Whether all entries before this place of the order stand before the key.
fn is_behind_them(columns: &Columns, order: &[u32], place: usize, key: Entry) -> bool {
    place == 0 || is_before_at(columns, order, place - 1, key)
}

fn is_there(order: &[u32], place: usize, number: usize) -> bool {
    match order.get(place) {
        Some(there) => *there as usize == number,
        None => false,
    }
}

// The place, where it is the first under the key, as its first key, which stands at this place of the order.
fn first_at(columns: &Columns, order: &[u32], at: usize, key: Entry, place: usize) -> Option<u32> {
    if columns.has(Which::First, entry_of(key, place))
        && is_there(order, at, number_of(Which::First, place))
        && is_behind_them(columns, order, at, key)
    {
        Some(place as u32)
    } else {
        None
    }
}

// Where the entries under a key begin, by a search.
fn lower(columns: &Columns, order: &[u32], key: Entry) -> usize {
    lower_between(columns, order, key, 0, order.len())
}

// What `lower` returns, by one look where no entry stands behind the key, as where the ports of connections rise.
#[inline(always)]
fn lower_or_end(columns: &Columns, order: &[u32], key: Entry) -> usize {
    let end = order.len();
    if is_behind_them(columns, order, end, key) {
        return end;
    }
    lower(columns, order, key)
}

// What `lower` returns, by two looks where the guess is right, else by a search before or behind it.
#[inline(always)]
fn lower_by(columns: &Columns, order: &[u32], key: Entry, guess: usize) -> usize {
    if guess >= order.len() {
        return lower_or_end(columns, order, key);
    }
    if is_before_at(columns, order, guess, key) {
        return lower_between(columns, order, key, guess + 1, order.len());
    }
    if is_behind_them(columns, order, guess, key) {
        return guess;
    }
    lower_between(columns, order, key, 0, guess)
}

// Where a number stands, of a few from this place of the order on: keys that go one after another mostly stand near,
// and these looks at numbers side by side spare a search.
fn near(order: &[u32], number: u32, from: usize) -> Option<usize> {
    let end = from.saturating_add(WINDOW).min(order.len());
    for place in from..end {
        if order[place] == number {
            return Some(place);
        }
    }
    None
}

impl Index {
    /// An index of so many places, at most 2^30, with room for two entries each, and for the first places under 256
    /// keys.
    ///
    /// # Errors
    /// An error where there is no memory for it.
    pub fn new(alloc: Global, count: usize) -> Result<Index, AllocError> {
        let columns = Columns::new(alloc, count)?;
        let order = Vec::with_capacity(alloc, columns.len().saturating_mul(2))?;
        Ok(Index {
            columns,
            order,
            sought: least_key(),
            begins: 0,
            known: Known::new(alloc)?,
            guesses: Guesses::new(),
        })
    }

    /// How many entries it has.
    pub fn len(&self) -> usize {
        self.order.len()
    }

    /// One of them.
    pub fn get(&self, place: usize) -> Entry {
        entry_at(&self.columns, &self.order, place)
    }

    /// Where the entries under this key begin. It is not searched for where it was sought last, or where the guess for
    /// second keys that rest is right.
    pub fn lower(&self, key: Entry) -> usize {
        if is_entry(key, self.sought) {
            return self.begins;
        }
        lower_by(&self.columns, &self.order, key, self.guesses.rests)
    }

    /// Seeks a key, so that `known` tells the first place under it, and `lower` does not search for it until an entry
    /// is added or removed, or another key is sought.
    pub fn seek(&mut self, key: Entry) {
        if self.known(key).is_none() && !is_entry(key, self.sought) {
            self.search(key);
        }
    }

    // Apart from `seek`, which mostly knows the key, so that it saves few registers.
    #[inline(never)]
    fn search(&mut self, key: Entry) {
        self.begins = lower_or_end(&self.columns, &self.order, key);
        self.sought = key;
        self.learn();
    }

    // The first place under the key that was sought is known.
    fn learn(&mut self) {
        let first = first_under(&self.columns, &self.order, self.sought, self.begins);
        self.known.learn(self.sought, first);
    }

    /// The first place under this key, where the key was sought; none where that is not known.
    pub fn known(&self, key: Entry) -> Option<usize> {
        let place = self.known.get(key);
        if self.columns.has(Which::First, entry_of(key, place)) { Some(place) } else { None }
    }

    /// Whether a place has this key and no other, or none where none is given. Where the answer is no, it says nothing.
    pub fn is_filed(&self, which: Which, place: usize, key: Option<&Entry>) -> bool {
        match key {
            Some(key) => self.columns.has(which, entry_of(*key, place)),
            None => place >= self.columns.len() || self.columns.is_free(number_of(which, place)),
        }
    }

    /// Whether each entry stands behind all that there could be under this key, by one look. Where the answer is no, it
    /// says nothing.
    pub fn is_behind(&self, key: Entry) -> bool {
        match self.order.first() {
            Some(number) => is_key_less(key, self.columns.get(*number as usize)),
            None => true,
        }
    }

    /// Adds an entry of a place of its own that has no such key yet, where the key is one that fits and the place's
    /// other key is another. Whether it did. No memory is asked for.
    pub fn add(&mut self, which: Which, entry: Entry) -> bool {
        let guess = self.guesses.to_add(which, entry, self.order.len());
        let place = lower_by(&self.columns, &self.order, entry, guess);
        let added = self.put_at(place, which, entry);
        if added && which == Which::First {
            self.learn_at(place, entry_of(entry, 0), entry.place);
        }
        added
    }

    fn put_at(&mut self, place: usize, which: Which, entry: Entry) -> bool {
        if self.order.len() >= self.order.capacity() {
            return false;
        }
        if self.stands_at(place, entry) {
            return false;
        }
        if !self.columns.put(which, entry) {
            return false;
        }
        let number = number_of(which, entry.place) as u32;
        self.sought = least_key();
        self.begins = 0;
        self.known.forget(entry);
        self.guesses.note_added(which, entry, place);
        self.order.insert(place, number).is_ok()
    }

    // The place is known as the first under the key, where it is, and was added at this place of the order.
    fn learn_at(&mut self, at: usize, key: Entry, place: usize) {
        let first = first_at(&self.columns, &self.order, at, key, place);
        self.known.learn(key, first);
    }

    // Whether an entry stands at this place of the order that is not behind this one, as those of other places are.
    fn stands_at(&self, place: usize, entry: Entry) -> bool {
        place < self.order.len()
            && self.order[place] as usize / 2 == entry.place
            && !is_less(entry, self.get(place))
    }

    fn take_out(&mut self, place: usize) {
        let number = self.order.remove(place);
        self.sought = least_key();
        self.begins = 0;
        self.columns.free(number as usize);
    }

    /// Removes a key of a place, whatever it is.
    pub fn unfile(&mut self, which: Which, place: usize) {
        if place >= self.columns.len() {
            return;
        }
        let number = number_of(which, place);
        if !self.columns.is_free(number) {
            self.take(which, number);
        }
    }

    // Removes the key of this number, where it stands.
    fn take(&mut self, which: Which, number: usize) {
        let opens = self.columns.is_least_door(number / 2);
        let place = self.stands(number, self.guesses.to_remove(which, opens));
        self.take_out(place);
        self.note_removed(which, opens, place);
    }

    fn note_removed(&mut self, which: Which, opens: bool, place: usize) {
        self.guesses.note_removed(which, opens, place);
    }

    // Where the key of this number stands.
    fn stands(&self, number: usize, from: usize) -> usize {
        match near(&self.order, number as u32, from) {
            Some(place) => place,
            None => lower(&self.columns, &self.order, self.columns.get(number)),
        }
    }
}
