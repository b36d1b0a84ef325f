//! `pair_replay` for a browser or nodejs: a script goes in byte by byte, and what its lines come to comes out so.
use smoltcp_proved::kit::alloc::Global;
use smoltcp_proved::proved::script_program::streams::{Input, Output};
use smoltcp_proved::proved::sock_pair::script::{End, replay as play};
use std::cell::RefCell;

thread_local! {
    static SCRIPT: RefCell<Vec<u8>> = const { RefCell::new(Vec::new()) };
    static SAID: RefCell<Vec<u8>> = const { RefCell::new(Vec::new()) };
}

/// Puts a byte behind the script.
#[unsafe(no_mangle)]
pub extern "C" fn put(byte: u8) {
    SCRIPT.with_borrow_mut(|script| script.push(byte));
}

/// Replays the script, which is empty afterwards: how many bytes that says, or -1 where the script is wrong.
#[unsafe(no_mangle)]
pub extern "C" fn replay() -> i32 {
    let script = SCRIPT.take();
    let mut said = Vec::new();
    let end = play(Global, &mut Input::new(&script[..]), &mut Output::new(&mut said));
    let len = said.len();
    SAID.set(said);
    if matches!(end, End::Done) { len as i32 } else { -1 }
}

/// A byte of what was said.
#[unsafe(no_mangle)]
pub extern "C" fn said(place: usize) -> u8 {
    SAID.with_borrow(|said| said[place])
}
