// Made from crates/pair_replay/src/main.rt by rust/translate: change it there.
// What only clauses name is unused here, and some forms are those that a prover reads best.
#![allow(unused_imports, unused_variables, unused_must_use, dead_code, clippy::all)]
//! Runs a script over two TCP sockets and prints what each of its lines came to.

use smoltcp_proved::kit::{HostRuntime, String};

mod capture;
mod options;
mod why;

use crate::capture::{Told, capture};
use crate::options::{Task, task_of};
use smoltcp_proved::kit::io;
use smoltcp_proved::kit::io::{BufWriter, Write};
use smoltcp_proved::proved::script_program::fault::{Fault, exit_code, fault_of};
use smoltcp_proved::proved::script_program::input::{print, read_script};
use smoltcp_proved::proved::script_program::streams::{Input, Output};
use smoltcp_proved::proved::sock_pair::script::replay;
use std::process::ExitCode;

// What `--help` prints.
const HELP: &str = "\
usage: pair_replay [--pcap a|b | --why] [FILE]

Runs the script of FILE, or of standard input, over two TCP sockets, and prints
a line for each event, and at the end the state of each side and how many bytes
it accepted, handed out and has queued. A wrong script ends with status 1, the
number of its line and what would be right, a stream that fails with 2.

--pcap a|b   writes the packets that this side sent and received in place of
             lines, each at its moment, as a pcap stream
--why        prints in place of lines of each segment that is delivered, to
             which side, its number, and what becomes of it, and of each
             dispatch why it emits, or that it waits
";

fn main() -> ExitCode {
    let rt = HostRuntime;
    exit_code(&rt, run(&rt))
}

fn run(rt: &HostRuntime) -> Result<(), Fault> {
    match task_of(rt)? {
        Task::Help => print(rt, HELP),
        Task::Replay(file) => replay_script(rt, file),
        Task::Reasons(file) => capture_script(rt, Told::Reasons, file),
        Task::Capture(side, file) => capture_script(rt, Told::Packets(side), file),
    }
}

// Replays the script of the file of this name, or of standard input where there is none.
fn replay_script(rt: &HostRuntime, file: Option<String>) -> Result<(), Fault> {
    let text = read_script(rt, file)?;
    let Ok(writer) = BufWriter::new(rt.alloc(), io::writer(rt)) else {
        return Err(Fault::Memory);
    };
    let mut output = Output::new(writer);
    let end = replay(rt.alloc(), &mut Input::new(text.as_slice()), &mut output);
    match output.flush() {
        Ok(()) => fault_of(rt.alloc(), end, text.as_slice()),
        Err(_) => Err(Fault::Write),
    }
}

// Writes what is told of the script.
fn capture_script(rt: &HostRuntime, told: Told, file: Option<String>) -> Result<(), Fault> {
    let text = read_script(rt, file)?;
    let Ok(mut output) = BufWriter::new(rt.alloc(), io::writer(rt)) else {
        return Err(Fault::Memory);
    };
    let end = capture(rt.alloc(), text.as_slice(), told, &mut output);
    match output.flush() {
        Ok(()) => fault_of(rt.alloc(), end, text.as_slice()),
        Err(_) => Err(Fault::Write),
    }
}
