//! Sizes that are fixed when the crate is built, most of them by a variable of the environment, as `SMOLTCP_` and the
//! constant's name.

// The number that a variable of the environment has.
const fn number(text: Option<&str>, otherwise: usize) -> usize {
    let Some(text) = text else { return otherwise };
    let (digits, mut number, mut place) = (text.as_bytes(), 0, 0);
    assert!(!digits.is_empty(), "a size of the build is empty");
    while place < digits.len() {
        assert!(digits[place].is_ascii_digit(), "a size of the build is no number");
        number = 10 * number + (digits[place] - b'0') as usize;
        place += 1;
    }
    number
}

macro_rules! sizes {
    ($($(#[$doc:meta])* $name:ident $variable:literal $otherwise:literal;)*) => { $(
        $(#[$doc])*
        #[doc = concat!("`", $variable, "`, else ", $otherwise, ".")]
        pub const $name: usize = number(option_env!($variable), $otherwise);
    )* };
}

sizes! {
    /// How many addresses an interface has at most.
    IFACE_MAX_ADDR_COUNT "SMOLTCP_IFACE_MAX_ADDR_COUNT" 8;
    /// How many routes an interface has at most.
    IFACE_MAX_ROUTE_COUNT "SMOLTCP_IFACE_MAX_ROUTE_COUNT" 4;
    /// How many sockets a set has at most, in a build without the feature `alloc`.
    IFACE_MAX_SOCKET_COUNT "SMOLTCP_IFACE_MAX_SOCKET_COUNT" 4;
    /// The longest packet of an interface, in a build without the feature `alloc`, in bytes. At least 100.
    IFACE_MAX_MTU "SMOLTCP_IFACE_MAX_MTU" 1500;
}

/// How many groups an interface has at most.
pub const IFACE_MAX_MULTICAST_GROUP_COUNT: usize = 4;

/// How many ranges of bytes a TCP socket keeps that came before those in front of them.
pub const ASSEMBLER_MAX_SEGMENT_COUNT: usize = 4;

const _: () = assert!(IFACE_MAX_MTU >= 100, "the longest packet has at least 100 bytes");
