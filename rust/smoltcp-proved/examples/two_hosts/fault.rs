// Made from crates/two_hosts/src/fault.rt by rust/translate: change it there.
//! Why the program failed.

use smoltcp_proved::kit::alloc::AllocError;

/// Why the program failed.
#[derive(Debug)]
pub enum Fault {
    Usage,
    Write,
    Memory,
}

impl Fault {
    /// The exit status: 1 for wrong arguments, 2 where standard output fails, 3 without memory.
    pub fn status(&self) -> u8 {
        match self {
            Fault::Usage => 1,
            Fault::Write => 2,
            Fault::Memory => 3,
        }
    }
}

impl From<AllocError> for Fault {
    fn from(_error: AllocError) -> Fault {
        Fault::Memory
    }
}

// What thiserror derives.
impl core::fmt::Display for Fault {
    fn fmt(&self, f: &mut core::fmt::Formatter<'_>) -> core::fmt::Result {
        match self {
            Fault::Usage => f.write_str("usage: two_hosts [SEED [LOSS]], LOSS at most 100; --help says more"),
            Fault::Write => f.write_str("write failed"),
            Fault::Memory => f.write_str("out of memory"),
        }
    }
}

impl core::error::Error for Fault {}
