// Made from crates/bench_parts/src/work.rt by rust/translate: change it there.
//! How many conversations two hosts have, of what size, and over which wire.
use crate::proved::bench_parts::random::Random;
use crate::proved::bench_parts::wire::Faults;
use crate::proved::smoltcp_socket::wire::Ipv4Address;

pub const CLIENT: Ipv4Address = crate::kit::ipv4([10, 0, 0, 1]);

pub const SERVER: Ipv4Address = crate::kit::ipv4([10, 0, 0, 2]);

// The size of each buffer.
pub const BUFFER: usize = 4096;

// How many bytes an application reads at once.
pub const PIECE: usize = 2048;

// The hosts end after so many moments, whatever is left to do.
pub const MOMENTS: u32 = 1_000_000;

pub const FAULTS: Faults = Faults { lost: 5, late: 10, twice: 5, flipped: 5 };

// How many sockets each host has, how many of them sleep, and how many conversations they have.
pub const SIZES: [[usize; 3]; 2] = [[32, 4, 60_000], [256, 200, 12_000]];

// What is still to do.
#[derive(Debug)]
pub struct Work {
    pub left: usize,
    port: u16,
}

impl Work {
    /// So many conversations.
    pub fn new(left: usize) -> Work {
        Work { left, port: 20_000 }
    }

    /// The next port of the client.
    pub fn next_port(&mut self) -> u16 {
        self.port = if self.port > 60_000 { 20_000 } else { self.port + 1 };
        self.port
    }
}

// 100 to 600 bytes, and of some 600 to 8,000.
pub fn answer_len(random: &mut Random) -> usize {
    let small = 100 + random.below(500) as usize;
    if random.happens(300) { 600 + random.below(7400) as usize } else { small }
}
