// Made from crates/sock_bench/src/plan.rt by rust/translate: change it there.
//! The transfers of a job: through packets and buffers of several sizes, over both versions of IP, with timestamps and
//! without, one way and both ways.

use crate::transfer::transfer;
use smoltcp_proved::kit::alloc::{AllocError, Global};
use smoltcp_proved::proved::bench_parts::digest::Digest;
use smoltcp_proved::proved::bench_parts::random::Random;
use smoltcp_proved::proved::bench_parts::wire::{CLEAN, Faults};
use smoltcp_proved::proved::smoltcp_socket::tcp::CongestionControl;

/// A transfer over one connection.
#[derive(Debug, Clone, Copy)]
pub struct Plan {
    /// Whether over IPv6.
    pub v6: bool,
    /// The largest packet.
    pub mtu: usize,
    /// The size of each buffer.
    pub buffer: usize,
    /// Whether with timestamps.
    pub stamped: bool,
    /// How many bytes each side sends.
    pub total: [usize; 2],
    /// The longest write and the longest read.
    pub write: usize,
    pub read: usize,
    /// In how many of a thousand moments the applications read.
    pub reads: u32,
    /// What the wire does.
    pub faults: Faults,
    pub congestion: CongestionControl,
}

const KB: usize = 1024;

const MB: usize = 1024 * 1024;

// MTU, size of the buffers, longest write, longest read, megabytes one way, megabytes the other way.
const CLEAN_SIZES: [[usize; 6]; 8] = [
    [1500, 64 * KB, 9000, 8192, 280, 0],
    [1500, 4 * KB, 1460, 2048, 48, 0],
    [1500, MB, 30_000, 65_536, 280, 0],
    [1500, 64 * KB, 700, 500, 80, 80],
    [576, 64 * KB, 3000, 4096, 64, 0],
    [9000, MB, 20_000, 16_384, 400, 0],
    [65_535, MB, 65_536, 65_536, 480, 120],
    [1500, 16 * KB, 5000, 4096, 60, 60],
];

/// Transfers over a wire that loses nothing.
pub fn clean_transfers(
    alloc: Global,
    share: u32,
    source: &[u8],
    random: &mut Random,
    digest: &mut Digest,
) -> Result<(), AllocError> {
    for (i, sizes) in CLEAN_SIZES.iter().enumerate() {
        let plan = Plan {
            v6: i % 3 == 2,
            stamped: i % 2 == 1,
            reads: 1000,
            faults: CLEAN,
            congestion: CongestionControl::None,
            ..of_sizes(sizes, share)
        };
        transfer(alloc, &plan, source, random, digest)?;
    }
    Ok(())
}

// Transfers over a wire that loses, and in how many of a thousand moments the applications read.
const LOSSY_SIZES: [[usize; 7]; 7] = [
    [1500, 64 * KB, 9000, 8192, 180, 0, 1000],
    [1500, MB, 30_000, 65_536, 220, 0, 1000],
    [576, 16 * KB, 1500, 1000, 45, 30, 1000],
    [1500, 64 * KB, 4000, 3000, 110, 110, 700],
    [9000, 64 * KB, 9000, 5000, 150, 0, 500],
    [1500, 4 * KB, 3000, 1, 12, 0, 1000],
    [1500, 8 * KB, 3000, 4096, 30, 30, 150],
];

/// Transfers over a wire that loses 1 to 3 packets of a hundred, and repeats and reorders others, with readers that
/// are slow or read single bytes.
pub fn lossy_transfers(
    alloc: Global,
    share: u32,
    source: &[u8],
    random: &mut Random,
    digest: &mut Digest,
) -> Result<(), AllocError> {
    for (i, sizes) in LOSSY_SIZES.iter().enumerate() {
        let [mtu, buffer, write, read, one, other, reads] = *sizes;
        let plan = Plan {
            v6: i % 3 == 1,
            stamped: i % 2 == 0,
            reads: reads.min(1000) as u32,
            faults: Faults { lost: 10 + 5 * (i % 5) as u32, late: 30, twice: 20, flipped: 2 },
            congestion: if i % 2 == 0 { CongestionControl::Reno } else { CongestionControl::None },
            ..of_sizes(&[mtu, buffer, write, read, one, other], share)
        };
        transfer(alloc, &plan, source, random, digest)?;
    }
    Ok(())
}

fn of_sizes(sizes: &[usize; 6], share: u32) -> Plan {
    let [mtu, buffer, write, read, one, other] = *sizes;
    Plan {
        v6: false,
        mtu,
        buffer,
        stamped: false,
        total: [bytes_of(one, share), bytes_of(other, share)],
        write,
        read,
        reads: 1000,
        faults: CLEAN,
        congestion: CongestionControl::None,
    }
}

// Thousandths of so many megabytes.
fn bytes_of(megabytes: usize, share: u32) -> usize {
    megabytes.min(1000) * 1000 * share.min(1000) as usize
}
