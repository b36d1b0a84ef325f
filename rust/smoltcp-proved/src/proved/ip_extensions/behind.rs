// Made from crates/ip_extensions/src/behind.rt by rust/translate: change it there.
//! What stands behind the extension headers of a packet.

/// At most so many extension headers are passed over.
pub const MOST_HEADERS: usize = 4;

/// What stands behind the extension headers of a packet.
#[derive(Debug, Clone, Copy, PartialEq, Eq)]
pub enum Behind<'p> {
    /// What is carried of the protocol with this number.
    Carried(u8, &'p [u8]),
    /// A fragment of another packet.
    Fragment,
    /// A routing header that names further nodes: how many bytes stand behind it, itself among them.
    Routed(usize),
    /// A header ends behind the packet, or there are too many.
    Malformed,
}

// Hop-by-hop options, a routing header, or destination options.
fn is_passed(next: u8) -> bool {
    matches!(next, 0 | 43 | 60)
}

// Whether a routing header names further nodes.
fn is_routed(next: u8, bytes: &[u8]) -> bool {
    next == 43 && bytes[3] != 0
}

// The length of a header, in bytes.
fn header_len(bytes: &[u8]) -> usize {
    8 + 8 * bytes[1] as usize
}

// What the header names next.
fn next_of(bytes: &[u8]) -> u8 {
    bytes[0]
}

// What stands behind the header.
fn rest_of(bytes: &[u8]) -> &[u8] {
    &bytes[header_len(bytes)..]
}

// What is known without a look behind the header, if anything.
fn decided(next: u8, bytes: &[u8]) -> Option<Behind<'_>> {
    if next == 44 {
        return Some(Behind::Fragment);
    }
    if !is_passed(next) {
        return Some(Behind::Carried(next, bytes));
    }
    if bytes.len() < 8 || bytes.len() < header_len(bytes) {
        return Some(Behind::Malformed);
    }
    if is_routed(next, bytes) {
        return Some(Behind::Routed(bytes.len()));
    }
    None
}

/// What stands behind the extension headers, of a packet whose header names `next`, and carries these bytes.
pub fn behind_headers(next: u8, bytes: &[u8]) -> Behind<'_> {
    read(MOST_HEADERS, next, bytes)
}

// What stands behind the extension headers, of which at most so many are passed over.
fn read(most: usize, next: u8, bytes: &[u8]) -> Behind<'_> {
    match decided(next, bytes) {
        Some(known) => known,
        None => {
            if most == 0 {
                return Behind::Malformed;
            }
            read(most - 1, next_of(bytes), rest_of(bytes))
        }
    }
}
