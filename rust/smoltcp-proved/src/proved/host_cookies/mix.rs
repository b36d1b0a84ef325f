// Made from crates/host_cookies/src/mix.rt by rust/translate: change it there.
//! A keyed function of a call: words of ChaCha20 at a place that the call tells.

use crate::kit::rand_chacha::ChaCha20Rng;
use crate::kit::rand_core::utils::NextWord;
use crate::proved::host_cookies::call::Call;
use crate::proved::ip_wire::IpAddress;

// Two words of the key's stream `a`, from the beginning of its block `b` on.
pub(crate) fn mixed(words: &mut ChaCha20Rng, a: u64, b: u64) -> u64 {
    words.set_stream(a);
    words.set_word_pos(u128::from(b) * 16);
    let low = words.next_word();
    let high = words.next_word();
    u64::from(high) * 4_294_967_296 + u64::from(low)
}

// An address as a number; one of IPv4 as if it were mapped (RFC 4291, section 2.5.5.2).
fn number_of(addr: &IpAddress) -> u128 {
    match addr {
        IpAddress::Ipv4(addr) => u128::from(u32::from_be_bytes(addr.octets())) + 0xffff_0000_0000,
        IpAddress::Ipv6(addr) => u128::from_be_bytes(addr.octets()),
    }
}

// Both addresses of a call: two of IPv4 fit one place.
fn addresses_of(words: &mut ChaCha20Rng, call: &Call) -> u64 {
    let (remote, local) = (number_of(&call.remote), number_of(&call.local));
    if high_of(remote) == 0 && high_of(local) == 0 {
        return mixed(words, low_of(remote), low_of(local));
    }
    mixed_wide(words, remote, local)
}

fn mixed_wide(words: &mut ChaCha20Rng, remote: u128, local: u128) -> u64 {
    let one = mixed(words, high_of(remote), low_of(remote));
    let two = mixed(words, one, high_of(local));
    mixed(words, two, low_of(local))
}

fn high_of(number: u128) -> u64 {
    (number / 18_446_744_073_709_551_616) as u64
}

fn low_of(number: u128) -> u64 {
    (number % 18_446_744_073_709_551_616) as u64
}

/// What the key makes of a call, whatever the time.
pub(crate) fn tag_of(words: &mut ChaCha20Rng, call: &Call) -> u64 {
    let addresses = addresses_of(words, call);
    let ports = u64::from(call.remote_port) * 65536 + u64::from(call.local_port);
    mixed(words, addresses, ports * 4_294_967_296 + u64::from(call.number))
}
