// Made from crates/drill_lines/src/places.rt by rust/translate: change it there.
//! Addresses, endpoints and bytes as words of a line, in the form in which they are printed.

use crate::kit::Vec;
use crate::kit::alloc::{AllocError, Global};
use crate::proved::ip_wire::octets::put_three;
use crate::proved::ip_wire::{IpAddress, IpEndpoint, IpListenEndpoint, Ipv4Address, Ipv6Address};
use crate::proved::sock_pair::script::values::number;
use crate::proved::sock_pair::script::words::len_before;

// The length of an IPv6 address in brackets.
const BRACKETED: usize = 41;

/// `10.0.0.1`, or in brackets eight groups of four hexadecimal digits, joined by colons.
pub fn address(word: &[u8]) -> Option<IpAddress> {
    if word.first() == Some(&b'[') {
        let addr = ipv6(word)?;
        return Some(IpAddress::Ipv6(addr));
    }
    let addr = ipv4(word)?;
    Some(IpAddress::Ipv4(addr))
}

/// `10.0.0.1:80`: an address, a colon, and a port.
pub fn endpoint(word: &[u8]) -> Option<IpEndpoint> {
    let end = if word.first() == Some(&b'[') { BRACKETED } else { len_before(word, b':') };
    if end >= word.len() || word[end] != b':' {
        return None;
    }
    let addr = address(&word[..end])?;
    let port = port(&word[end + 1..])?;
    Some(IpEndpoint { addr, port })
}

/// A port, for any address, or an endpoint.
pub fn listen_endpoint(word: &[u8]) -> Option<IpListenEndpoint> {
    if let Some(port) = port(word) {
        return Some(IpListenEndpoint { addr: None, port });
    }
    let IpEndpoint { addr, port } = endpoint(word)?;
    Some(IpListenEndpoint { addr: Some(addr), port })
}

/// A number of at most 65535.
pub fn port(word: &[u8]) -> Option<u16> {
    let port = number(word, 65535)?;
    Some(port as u16)
}

/// A number of at most 4294967295.
pub fn word32(word: &[u8]) -> Option<u32> {
    let number = number(word, 4_294_967_295)?;
    Some(number as u32)
}

/// A number of at most 255.
pub fn octet(word: &[u8]) -> Option<u8> {
    let octet = number(word, 255)?;
    Some(octet as u8)
}

// What stands before the first such byte, and behind it.
fn split(bytes: &[u8], stop: u8) -> Option<(&[u8], &[u8])> {
    let end = len_before(bytes, stop);
    if end >= bytes.len() {
        return None;
    }
    Some((&bytes[..end], &bytes[end + 1..]))
}

fn ipv4(word: &[u8]) -> Option<Ipv4Address> {
    let (a, rest) = split(word, b'.')?;
    let (b, rest) = split(rest, b'.')?;
    let (c, d) = split(rest, b'.')?;
    Some(crate::kit::ipv4([octet(a)?, octet(b)?, octet(c)?, octet(d)?]))
}

fn ipv6(word: &[u8]) -> Option<Ipv6Address> {
    if word.len() != BRACKETED || word[40] != b']' || word[20] != b':' {
        return None;
    }
    let (first, second) = (four_groups(word, 1)?, four_groups(word, 21)?);
    Some(crate::kit::ipv6(joined(first, second)))
}

fn joined(first: [u8; 8], second: [u8; 8]) -> [u8; 16] {
    let mut all = [0u8; 16];
    put_three(&mut all, &first, &second, &[]);
    all
}

// The octets of the four groups that begin at this place, with colons between them.
fn four_groups(word: &[u8], at: usize) -> Option<[u8; 8]> {
    if word[at + 9] != b':' {
        return None;
    }
    let [a, b, c, d] = two_groups(word, at)?;
    let [e, f, g, h] = two_groups(word, at + 10)?;
    Some([a, b, c, d, e, f, g, h])
}

fn two_groups(word: &[u8], at: usize) -> Option<[u8; 4]> {
    if word[at + 4] != b':' {
        return None;
    }
    let [a, b] = group(word, at)?;
    let [c, d] = group(word, at + 5)?;
    Some([a, b, c, d])
}

// The octets that the four digits from this place on write.
fn group(word: &[u8], at: usize) -> Option<[u8; 2]> {
    let high = pair(word[at], word[at + 1])?;
    let low = pair(word[at + 2], word[at + 3])?;
    Some([high, low])
}

// The octet that two hexadecimal digits write.
fn pair(high: u8, low: u8) -> Option<u8> {
    let (high, low) = (digit(high)?, digit(low)?);
    Some(16 * high + low)
}

// The value of a hexadecimal digit, in lower case.
fn digit(byte: u8) -> Option<u8> {
    match byte {
        b'0'..=b'9' => Some(byte - b'0'),
        b'a'..=b'f' => Some(byte - b'a' + 10),
        _ => None,
    }
}

/// Whether a word is hexadecimal digits in lower case, two for each byte.
pub fn is_hex(word: &[u8]) -> bool {
    word.len() % 2 == 0 && all_digits(word)
}

fn all_digits(word: &[u8]) -> bool {
    word.iter().all(|byte| digit(*byte).is_some())
}

/// The bytes that hexadecimal digits write; as many as there are before a word is none.
pub fn bytes_of_hex(alloc: Global, word: &[u8]) -> Result<Vec<u8>, AllocError> {
    let mut bytes = Vec::new(alloc);
    for pair in word.chunks_exact(2) {
        let Some(byte) = of_chunk(pair) else {
            break;
        };
        bytes.push(byte)?;
    }
    Ok(bytes)
}

fn of_chunk(chunk: &[u8]) -> Option<u8> {
    match chunk {
        [high, low] => pair(*high, *low),
        _ => None,
    }
}
