// Made from crates/host_bounds/src/marks.rt by rust/translate: change it there.
//! Bits of many places, in words of 64, and of each word whether it is not 0.

use crate::kit::alloc::{AllocError, Global};
use crate::kit::{Vec, vec};

// How many bits a word has.
const BITS: usize = 64;

/// Marks of many places, the first of which is found without a look at each.
pub struct Marks {
    // a bit for each place
    places: crate::kit::Words,
    // a bit for each word of these, set where it is not 0
    words: crate::kit::Words,
}

impl Marks {
    /// Marks of so many places, each of which is marked. They take 1/8 byte a place.
    ///
    /// # Errors
    /// An error where there is no memory for them.
    pub fn new(alloc: Global, count: usize) -> Result<Marks, AllocError> {
        let words = count / BITS + 1;
        Ok(Marks { places: all_ones(alloc, words)?, words: all_ones(alloc, words / BITS + 1)? })
    }

    /// This place is marked.
    pub fn put_on(&mut self, place: usize) {
        put_on(&mut self.places, &mut self.words, place);
    }

    /// This place is not marked any more.
    pub fn take_off(&mut self, place: usize) {
        take_off(&mut self.places, &mut self.words, place);
    }

    /// Each place is marked.
    pub fn reset(&mut self) {
        set_all(&mut self.places);
        set_all(&mut self.words);
    }

    /// No place is marked.
    pub fn clear(&mut self) {
        clear_all(&mut self.places);
        clear_all(&mut self.words);
    }

    /// Whether this place is marked; none is that is not there.
    pub fn is_on(&self, place: usize) -> bool {
        match self.places.get(place / BITS) {
            Some(word) => (*word >> (place % BITS)) % 2 == 1,
            None => false,
        }
    }

    /// The next place that is marked, from one on, or one behind all.
    pub fn next(&self, start: usize) -> usize {
        next_in(&self.places, &self.words, start)
    }
}

// So many words of ones.
fn all_ones(alloc: Global, count: usize) -> Result<crate::kit::Words, AllocError> {
    let mut words = crate::kit::Words::filled(alloc, 0u64, count)?;
    set_all(&mut words);
    Ok(words)
}

// All bits are ones now.
fn set_all(words: &mut crate::kit::Words) {
    words.fill(u64::MAX);
}

// All bits are zeros now.
fn clear_all(words: &mut crate::kit::Words) {
    words.fill(0);
}

// The bit of this place is a one now.
fn set_bit(words: &mut crate::kit::Words, place: usize) {
    let word = place / BITS;
    words[word] |= 1 << (place % BITS);
}

// The bit of this place is a zero now. Whether the others of its word are, too.
fn clear_bit(words: &mut crate::kit::Words, place: usize) -> bool {
    let word = place / BITS;
    let left = words[word] & !(1 << (place % BITS));
    words[word] = left;
    left == 0
}

fn put_on(marks: &mut crate::kit::Words, words: &mut crate::kit::Words, place: usize) {
    set_bit(marks, place);
    set_bit(words, place / BITS);
}

fn take_off(marks: &mut crate::kit::Words, words: &mut crate::kit::Words, place: usize) {
    if clear_bit(marks, place) {
        clear_bit(words, place / BITS);
    }
}

// How many zeros a word has from this bit on, and before a one.
fn zeros_from(word: u64, bit: usize) -> usize {
    let rest = word >> bit;
    rest.trailing_zeros() as usize
}

// A place before which there are zeros alone, from one on.
fn first_one(words: &[u64], start: usize) -> usize {
    let mut word = start / BITS;
    let mut bit = start % BITS;
    while word < words.len() {
        let zeros = zeros_from(words[word], bit);
        if bit + zeros < BITS {
            return word.saturating_mul(BITS).saturating_add(bit + zeros);
        }
        word += 1;
        bit = 0;
    }
    word.saturating_mul(BITS)
}

// The first one of a word from this bit on, counted from there.
fn one_from(word: u64, bit: usize) -> Option<usize> {
    let rest = word >> bit;
    if rest == 0 {
        return None;
    }
    Some(rest.trailing_zeros() as usize)
}

// The next place that is marked: mostly one of the same word.
fn next_in(marks: &[u64], words: &[u64], start: usize) -> usize {
    let word = start / BITS;
    if marks.len() <= word {
        return start;
    }
    match one_from(marks[word], start % BITS) {
        Some(zeros) => start + zeros,
        None => next_behind(marks, words, start),
    }
}

// The next place that is marked in a word behind this place's. Not inlined, as few searches come here.
#[inline(never)]
fn next_behind(marks: &[u64], words: &[u64], start: usize) -> usize {
    let mut word = start / BITS + 1;
    while word < marks.len() {
        if let Some(zeros) = one_from(marks[word], 0) {
            return word * BITS + zeros;
        }
        word = first_one(words, word + 1).max(word + 1);
    }
    word.saturating_mul(BITS)
}
