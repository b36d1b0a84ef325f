// Made from crates/segment_wire/src/options.rt by rust/translate: change it there.
//! The options of a TCP header (RFC 9293, section 3.2; RFC 7323, sections 2.2 and 3.2; RFC 2018, sections 2 and 3).

use crate::proved::control_wire::TcpTimestampRepr;
use crate::proved::control_wire::source::is_option;
use crate::proved::ip_wire::octets::{self, behind, word};

/// The options of a segment that are known here.
#[derive(Clone, Copy)]
pub struct TcpOptions {
    /// The largest payload that the sender takes, in bytes.
    pub max_seg_size: Option<u16>,
    /// The window scale, 0 to 14 bits.
    pub window_scale: Option<u8>,
    /// Whether SACK is permitted.
    pub sack_permitted: bool,
    /// The first three blocks of the SACK option, each with its first number and the one behind its last.
    pub sack_ranges: [Option<(u32, u32)>; 3],
    /// The timestamp.
    pub timestamp: Option<TcpTimestampRepr>,
}

/// The options that these bytes spell; of an option that comes twice, the later one.
///
/// None where one that is not behind an END is cut off, or has a length that its kind does not allow (RFC 9293, section
/// 3.1). Unknown kinds are skipped, a window scale above 14 is read as 14 (RFC 7323, section 2.3), and of SACK blocks
/// the first three are kept, as smoltcp.
pub fn read_options(options: &[u8]) -> Option<TcpOptions> {
    let mut found = no_options();
    let mut at = 0;
    while at + 1 < options.len() {
        if options[at] == 0 {
            return Some(found);
        }
        let Some(size) = read_option(&mut found, options[at], options[at + 1], behind(options, at + 2))
        else {
            return None;
        };
        at += size;
    }
    if at == options.len() || options[at] <= 1 { Some(found) } else { None }
}

// None of them.
pub(crate) const NO_OPTIONS: TcpOptions = TcpOptions {
    max_seg_size: None,
    window_scale: None,
    sack_permitted: false,
    sack_ranges: [None, None, None],
    timestamp: None,
};

/// None of them.
pub(crate) fn no_options() -> TcpOptions {
    NO_OPTIONS
}

// Reads the option that begins with this kind and length. Answers how many bytes it takes, where it is whole.
fn read_option(found: &mut TcpOptions, kind: u8, size: u8, bytes: &[u8]) -> Option<usize> {
    if kind == 1 {
        return Some(1);
    }
    if !is_option(kind, size) || size as usize > bytes.len() + 2 {
        return None;
    }
    keep_option(found, kind, size, bytes);
    Some(size as usize)
}

fn keep_option(found: &mut TcpOptions, kind: u8, size: u8, bytes: &[u8]) {
    match kind {
        2 => found.max_seg_size = Some(word(bytes[0], bytes[1])),
        3 => found.window_scale = Some(shift_of(bytes[0])),
        4 => found.sack_permitted = true,
        5 => found.sack_ranges = ranges_at(size, bytes),
        8 => found.timestamp = Some(stamp_at(bytes)),
        _ => {}
    }
}

fn shift_of(bits: u8) -> u8 {
    if bits <= 14 { bits } else { 14 }
}

fn ranges_at(size: u8, bytes: &[u8]) -> [Option<(u32, u32)>; 3] {
    [range_if(true, bytes, 0), range_if(18 <= size, bytes, 8), range_if(26 <= size, bytes, 16)]
}

fn range_if(there: bool, bytes: &[u8], at: usize) -> Option<(u32, u32)> {
    if there { Some((be32_at(bytes, at), be32_at(bytes, at + 4))) } else { None }
}

fn stamp_at(bytes: &[u8]) -> TcpTimestampRepr {
    TcpTimestampRepr { tsval: be32_at(bytes, 0), tsecr: be32_at(bytes, 4) }
}

/// The number of the four bytes at `at`, in network order.
pub fn be32_at(bytes: &[u8], at: usize) -> u32 {
    octets::be32_at(bytes, at)
}
