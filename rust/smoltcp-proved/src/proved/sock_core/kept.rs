// Made from crates/sock_core/src/kept.rt by rust/translate: change it there.
//! A value beside a flag, in place of an `Option`: the tag of one takes as many bytes as its value is aligned by.

/// The value, where the flag says that there is one.
#[inline(always)]
pub fn kept<T: Copy>(has: bool, value: T) -> Option<T> {
    if has { Some(value) } else { None }
}
