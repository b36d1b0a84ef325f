// Made from crates/sock_pair/src/script/values.rt by rust/translate: change it there.
//! What single words of a line mean.

use crate::proved::pair_core::Side;
use crate::proved::sock_pair::script::lanes::{LANES, lanes_are_text};
use crate::proved::sock_tcp::Rules;

/// `a` or `b`; none for any other word.
pub fn side(word: &[u8]) -> Option<Side> {
    match word {
        b"a" => Some(Side::A),
        b"b" => Some(Side::B),
        _ => None,
    }
}

/// Whether a word is `on`; none for any other word than `on` and `off`.
pub fn switch(word: &[u8]) -> Option<bool> {
    match word {
        b"on" => Some(true),
        b"off" => Some(false),
        _ => None,
    }
}

/// The rules that a word names, `rfc` or `smoltcp`; none for any other word.
pub fn rules(word: &[u8]) -> Option<Rules> {
    match word {
        word if word == b"rfc".as_slice() => Some(Rules::Rfc),
        word if word == b"smoltcp".as_slice() => Some(Rules::Smoltcp),
        _ => None,
    }
}

/// The number that 1 to 10 decimal digits write, where it is at most `most`; none for any other
/// word.
pub fn number(word: &[u8], most: usize) -> Option<usize> {
    if !is_number(word) {
        return None;
    }
    let value = value(word);
    if value <= most as u64 { Some(value as usize) } else { None }
}

/// The index that 1 to 10 decimal digits write; none for any other word. Where a `usize` has 32 bits, its greatest
/// stands for all that are greater.
pub fn index(word: &[u8]) -> Option<usize> {
    if !is_number(word) {
        return None;
    }
    let value = value(word);
    if value <= 9_999_999_999 { Some(nearest(value)) } else { None }
}

fn nearest(value: u64) -> usize {
    value.min(usize::MAX as u64) as usize
}

/// A limit of at most 536870911, or `-` for none.
pub fn limit(word: &[u8]) -> Option<Option<u32>> {
    if word == b"-".as_slice() {
        return Some(None);
    }
    match number(word, 536_870_911) {
        None => None,
        Some(limit) => Some(Some(limit as u32)),
    }
}

/// Whether a word has only bytes from 33 to 126.
pub fn is_text(word: &[u8]) -> bool {
    let mut at = 0;
    while word.len() - at >= LANES {
        if !lanes_are_text(word, at) {
            return false;
        }
        at += LANES;
    }
    few_are_text(&word[at..])
}

// Whether a short word is text, byte by byte.
fn few_are_text(word: &[u8]) -> bool {
    word.iter().all(|b| 33 <= *b && *b <= 126)
}

fn is_number(word: &[u8]) -> bool {
    !word.is_empty() && word.len() <= 10 && all_digits(word)
}

fn all_digits(word: &[u8]) -> bool {
    word.iter().all(|b| b.is_ascii_digit())
}

fn value(digits: &[u8]) -> u64 {
    let mut value = 0;
    for digit in digits {
        value = value * 10 + u64::from(*digit - b'0');
    }
    value
}
