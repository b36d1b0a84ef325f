// Made from crates/ip_extensions/src/lib.rt by rust/translate: change it there.
//! The extension headers of IPv6 (RFC 8200, section 4).

pub mod behind;

pub use behind::{Behind, MOST_HEADERS, behind_headers};
