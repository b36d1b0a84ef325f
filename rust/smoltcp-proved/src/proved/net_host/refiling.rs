// Made from crates/net_host/src/refiling.rt by rust/translate: change it there.
//! A place is filed under other keys.

use crate::proved::host_index::{Entry, Index, Which};
use crate::proved::net_host::key::{Key, Keys};

fn entry_at(key: &Entry, place: usize) -> Entry {
    Entry { major: key.major, minor: key.minor, place }
}

// Whether the place is filed under this key and no other.
#[inline(always)]
fn has_key(index: &Index, which: Which, place: usize, key: &Key) -> bool {
    match key {
        Key::Nothing => index.is_filed(which, place, None),
        Key::Under(key) => index.is_filed(which, place, Some(key)),
    }
}

// What the place is filed under is removed, unless it is this key.
#[inline(always)]
fn unfile(index: &mut Index, which: Which, place: usize, key: &Key) {
    if !has_key(index, which, place, key) {
        index.unfile(which, place);
    }
}

#[inline(always)]
fn file(index: &mut Index, which: Which, place: usize, key: &Key) -> bool {
    if has_key(index, which, place, key) {
        return true;
    }
    match key {
        Key::Nothing => false,
        Key::Under(key) => index.add(which, entry_at(key, place)),
    }
}

/// The place is filed under these keys, and not under others any more. Whether it was: it is where it is a place of the
/// index and its keys can be filed, and no memory is asked for. No other place is filed otherwise.
pub(crate) fn refile(index: &mut Index, place: usize, keys: &Keys) -> bool {
    unfile(index, Which::First, place, &keys.first);
    unfile(index, Which::Second, place, &keys.second);
    file_both(index, place, keys)
}

fn file_both(index: &mut Index, place: usize, keys: &Keys) -> bool {
    let first = file(index, Which::First, place, &keys.first);
    let second = file(index, Which::Second, place, &keys.second);
    first && second
}
