// Made from crates/host_cookies/src/lib.rt by rust/translate: change it there.
//! SYN cookies: the number of an answer that stands for the SYN it answers (RFC 4987, section 3.6).

pub mod call;
pub mod class;
pub mod cookies;
pub mod mix;
pub mod offer;

pub use call::Call;
pub use class::{class_of, mss_of};
pub use cookies::SynCookies;
pub use offer::{offer_bits, sack_in, scale_in, stamped, told_number};
