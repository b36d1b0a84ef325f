//! Files.
use crate::kit::HostRuntime;

/// Opens files.
#[derive(Debug)]
pub struct File;

impl File {
    /// The file of this name, to be read.
    #[allow(clippy::new_ret_no_self)]
    pub fn open(_: &HostRuntime, name: &str) -> std::io::Result<std::fs::File> {
        std::fs::File::open(name)
    }
}
