// Made from crates/pair_replay/src/options.rt by rust/translate: change it there.
//! What the arguments ask for.

use smoltcp_proved::kit::env;
use smoltcp_proved::kit::{HostRuntime, String};
use smoltcp_proved::proved::script_program::fault::Fault;
use smoltcp_proved::proved::sock_pair::Side;

const USAGE: &str = "pair_replay [--pcap a|b | --why] [FILE]";

/// What the arguments ask for: of the script of a file, or of standard input where none is named.
pub enum Task {
    /// The text of `--help`.
    Help,
    /// The lines of the script's events.
    Replay(Option<String>),
    /// What becomes of each segment that is delivered, and of each dispatch, and why.
    Reasons(Option<String>),
    /// The packets that this side sent and received.
    Capture(Side, Option<String>),
}

/// Reads the arguments.
pub fn task_of(rt: &HostRuntime) -> Result<Task, Fault> {
    let Ok(mut args) = env::args(rt) else {
        return Err(Fault::Memory);
    };
    let _program = args.next();
    match args.next() {
        Some(word) if word.as_str() == "--help" => Ok(Task::Help),
        Some(word) if word.as_str() == "--why" => Ok(Task::Reasons(last(args.next(), args.next())?)),
        Some(word) if word.as_str() == "--pcap" => {
            let side = side_of(args.next())?;
            Ok(Task::Capture(side, last(args.next(), args.next())?))
        }
        file => Ok(Task::Replay(last(file, args.next())?)),
    }
}

// The name of a file, or none, behind which no word stands. It does not begin with `--`.
fn last(file: Option<String>, more: Option<String>) -> Result<Option<String>, Fault> {
    let is_option = match &file {
        Some(word) => word.starts_with("--"),
        None => false,
    };
    if is_option || more.is_some() {
        return Err(Fault::Usage(USAGE));
    }
    Ok(file)
}

fn side_of(word: Option<String>) -> Result<Side, Fault> {
    match word {
        Some(word) if word.as_str() == "a" => Ok(Side::A),
        Some(word) if word.as_str() == "b" => Ok(Side::B),
        _ => Err(Fault::Usage(USAGE)),
    }
}
