// Made from crates/pair_chart/src/main.rt by rust/translate: change it there.
// What only clauses name is unused here, and some forms are those that a prover reads best.
#![allow(unused_imports, unused_variables, unused_must_use, dead_code, clippy::all)]
//! Runs a script over two TCP sockets and draws what happened in SVG: as a sequence chart, or as the sequence numbers
//! of one side over time.
//!
//! `pair_chart [--relative] [--sequence a|b] [FILE]`: the script stands in the file, or comes from standard input. The
//! picture goes to standard output.

use smoltcp_proved::kit::{HostRuntime, String};

mod options;

use crate::options::{Task, task_of};
use smoltcp_proved::kit::io;
use smoltcp_proved::kit::io::{BufWriter, Write};
use smoltcp_proved::proved::script_chart::picture::Picture;
use smoltcp_proved::proved::script_chart::play::draw;
use smoltcp_proved::proved::script_program::fault::{Fault, exit_code, fault_of};
use smoltcp_proved::proved::script_program::input::{print, read_script};
use std::process::ExitCode;

// What `--help` prints.
const HELP: &str = "\
usage: pair_chart [--relative] [--sequence a|b] [FILE]

Draws the script of FILE, or of standard input, in SVG on standard output: as a
sequence chart, an event a row. A wrong script ends with status 1 and the number
of its line, a stream that fails with 2.

--relative       counts the sequence numbers of each side from its SYN
--sequence a|b   draws instead what a or b sent, what of it was acknowledged,
                 and the window, as sequence numbers over time, from its SYN on
";

fn main() -> ExitCode {
    let rt = HostRuntime;
    exit_code(&rt, run(&rt))
}

fn run(rt: &HostRuntime) -> Result<(), Fault> {
    match task_of(rt)? {
        Task::Help => print(rt, HELP),
        Task::Draw(picture, file) => draw_script(rt, picture, file),
    }
}

// Draws the script of the file of this name, or of standard input where there is none.
fn draw_script(rt: &HostRuntime, picture: Picture, file: Option<String>) -> Result<(), Fault> {
    let text = read_script(rt, file)?;
    let Ok(mut output) = BufWriter::new(rt.alloc(), io::writer(rt)) else {
        return Err(Fault::Memory);
    };
    let end = draw(rt.alloc(), text.as_slice(), picture, &mut output);
    match output.flush() {
        Ok(()) => fault_of(rt.alloc(), end, text.as_slice()),
        Err(_) => Err(Fault::Write),
    }
}
