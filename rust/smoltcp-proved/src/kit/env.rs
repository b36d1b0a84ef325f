//! The words of a program's call.
use crate::kit::alloc::AllocError;
use crate::kit::{HostRuntime, String};

/// The words, the program's name first.
#[derive(Debug)]
pub struct Args(std::env::ArgsOs);

/// The words that the program is called with.
pub fn args(_: &HostRuntime) -> Result<Args, AllocError> {
    Ok(Args(std::env::args_os()))
}

impl Iterator for Args {
    type Item = String;

    fn next(&mut self) -> Option<String> {
        self.0.next().map(|word| word.to_string_lossy().into_owned().into())
    }
}
