//! What stands in for the library of the proved sources' toolchain, where Rust's own has another form: vectors and
//! strings that are given an allocator and may be refused memory, ChaCha20, and what a program is handed.
//!
//! It is written by hand, and not proved.
mod addresses;
pub mod alloc;
mod bytes;
mod chacha;
#[cfg(feature = "alloc")]
pub mod collections;
#[cfg(feature = "std")]
pub mod env;
#[cfg(not(feature = "alloc"))]
mod fixed;
#[cfg(feature = "std")]
pub mod fs;
#[cfg(feature = "std")]
pub mod io;
#[cfg(feature = "std")]
mod runtime;
pub mod simd;
mod storage;
#[cfg(feature = "alloc")]
mod string;
#[cfg(feature = "alloc")]
mod vec;

pub use addresses::{ipv4, ipv6};
pub(crate) use bytes::{be16, be32, four_le64, le16, le32, le64, sixteen_le64};
pub use chacha::{rand_chacha, rand_core};
#[cfg(not(feature = "alloc"))]
pub use fixed::{Blocks, Kept, Vec, Words};
#[cfg(not(feature = "alloc"))]
pub(crate) use fixed::{KNOWN, of_blocks};
#[cfg(feature = "std")]
pub use runtime::HostRuntime;
pub use storage::Storage;
#[cfg(feature = "alloc")]
pub use string::String;
#[cfg(feature = "alloc")]
pub use vec::{Blocks, Kept, Vec, Words};
#[cfg(feature = "alloc")]
pub(crate) use vec::{KNOWN, of_blocks};

/// A socket's rules; smoltcp's alone, in a build without the feature `rules-rfc`, which has no code for the others then.
#[inline(always)]
pub(crate) fn in_force(rules: crate::proved::sock_tcp::Rules) -> crate::proved::sock_tcp::Rules {
    if cfg!(feature = "rules-rfc") { rules } else { crate::proved::sock_tcp::Rules::Smoltcp }
}

/// What a socket remembers for the rules of the RFCs alone. A build without the feature `rules-rfc` has no bytes for it:
/// under smoltcp's rules it stays what a new socket has.
#[derive(Debug, Clone, Copy)]
pub(crate) struct OfRfc<T> {
    #[cfg(feature = "rules-rfc")]
    value: T,
    #[cfg(not(feature = "rules-rfc"))]
    value: core::marker::PhantomData<T>,
}

/// What a new socket has.
pub(crate) trait Nothing: Copy {
    /// That.
    #[cfg_attr(feature = "rules-rfc", allow(dead_code))]
    const NOTHING: Self;
}

impl Nothing for crate::proved::sock_tcp::recovery::Recovery {
    const NOTHING: Self = Self::Open;
}

impl Nothing for crate::proved::sock_tcp::scoreboard::Scoreboard {
    const NOTHING: Self = crate::proved::sock_tcp::scoreboard::NOTHING_TOLD;
}

impl Nothing for crate::proved::sock_tcp::undo::Undo {
    const NOTHING: Self = crate::proved::sock_tcp::undo::NOTHING_TO_UNDO;
}

#[cfg(feature = "rules-rfc")]
impl<T: Nothing> OfRfc<T> {
    #[inline(always)]
    pub(crate) const fn new(value: T) -> Self {
        OfRfc { value }
    }

    #[inline(always)]
    pub(crate) const fn get(&self) -> T {
        self.value
    }

    #[inline(always)]
    pub(crate) fn set(&mut self, value: T) {
        self.value = value;
    }
}

#[cfg(not(feature = "rules-rfc"))]
impl<T: Nothing> OfRfc<T> {
    #[inline(always)]
    pub(crate) const fn new(_: T) -> Self {
        OfRfc { value: core::marker::PhantomData }
    }

    #[inline(always)]
    pub(crate) const fn get(&self) -> T {
        T::NOTHING
    }

    #[inline(always)]
    pub(crate) fn set(&mut self, _: T) {}
}

/// A vector of one item so many times, as `vec![in alloc; 0u8; 10]`: an error where there is no memory for it.
#[doc(hidden)]
#[macro_export]
macro_rules! __vec {
    (in $alloc:expr; $item:expr; $count:expr) => {
        $crate::kit::Vec::<_>::filled($alloc, $item, $count)
    };
    (in $alloc:expr; $($item:expr),+ $(,)?) => {
        $crate::kit::Vec::from_array($alloc, [$($item),+])
    };
}
pub use crate::__vec as vec;

/// A text of values, as `format!(in alloc; "{a}")`: an error where there is no memory for it.
#[cfg(feature = "alloc")]
#[doc(hidden)]
#[macro_export]
macro_rules! __format {
    (in $alloc:expr; $($text:tt)*) => {
        $crate::kit::String::written($alloc, ::core::format_args!($($text)*))
    };
}
#[cfg(feature = "alloc")]
pub use crate::__format as format;
