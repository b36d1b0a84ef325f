// Made from crates/socket_drill/src/main.rt by rust/translate: change it there.
// What only clauses name is unused here, and some forms are those that a prover reads best.
#![allow(unused_imports, unused_variables, unused_must_use, dead_code, clippy::all)]
//! Runs drills: scripts of sockets of every kind, and of what they are expected to answer.

use smoltcp_proved::kit::{HostRuntime, String, Vec, format};

mod list;

use crate::list::list;
use smoltcp_proved::kit::alloc::Global;
use smoltcp_proved::kit::io::{BufWriter, Write};
use smoltcp_proved::kit::{env, io};
use smoltcp_proved::proved::drill_lines::advice::advice_on;
use smoltcp_proved::proved::pcap::stream::stream_header;
use smoltcp_proved::proved::script_program::fault::{Fault, exit_code};
use smoltcp_proved::proved::script_program::input::{print, read_script};
use smoltcp_proved::proved::sock_pair::script::ScriptError;
use smoltcp_proved::proved::socket_script::{Stop, Tally, Wanted, run};
use std::process::ExitCode;

// What `--help` prints.
const HELP: &str = "\
usage: socket_drill [--pcap|--list] [FILE]..
       socket_drill --chart [FILE]

Runs the drills of the files, or of standard input: sockets of every kind, what
is called, and what comes to them. Where a drill says what it expects, only what
differs is printed, and then the status is 1; else a line for each event. A wrong
line ends with status 1 too, and what would be right, a stream that fails with 2.

--pcap    writes the packets that come and go in place of lines, as a pcap stream
--chart   draws each line and what came of it, in SVG
--list    runs nothing, and prints each example's name and the comment above it
";

fn main() -> ExitCode {
    let rt = HostRuntime;
    match start(&rt) {
        Ok(tally) if tally.differences > 0 => ExitCode::from(1),
        Ok(_) => ExitCode::SUCCESS,
        Err(fault) => exit_code(&rt, Err(fault)),
    }
}

fn start(rt: &HostRuntime) -> Result<Tally, Fault> {
    let task = task_of(rt)?;
    if let Job::Help = task.job {
        print(rt, HELP)?;
        return Ok(Tally::new());
    }
    let Ok(mut output) = BufWriter::new(rt.alloc(), io::writer(rt)) else {
        return Err(Fault::Memory);
    };
    let ran = match task.job {
        Job::Run(wanted) => drills(rt, wanted, task.files, &mut output),
        Job::Help | Job::List => lists(rt, task.files, &mut output),
    };
    if output.flush().is_err() {
        return Err(Fault::Write);
    }
    ran
}

// What the program does with its files.
#[derive(Clone, Copy)]
enum Job {
    Help,
    List,
    Run(Wanted),
}

// What the arguments ask for.
struct Task {
    job: Job,
    files: Vec<String>,
}

fn task_of(rt: &HostRuntime) -> Result<Task, Fault> {
    let Ok(mut args) = env::args(rt) else {
        return Err(Fault::Memory);
    };
    let _program = args.next();
    let mut task = Task { job: Job::Run(Wanted::Lines), files: Vec::new(rt.alloc()) };
    for word in args {
        match word.as_str() {
            "--help" => task.job = Job::Help,
            "--list" => task.job = Job::List,
            "--pcap" => task.job = Job::Run(Wanted::Packets),
            "--chart" => task.job = Job::Run(Wanted::Chart),
            _ => {
                if task.files.push(word).is_err() {
                    return Err(Fault::Memory);
                }
            }
        }
    }
    if task.files.len() > 1 && matches!(task.job, Job::Run(Wanted::Chart)) {
        return Err(Fault::Usage("socket_drill --chart [FILE]"));
    }
    Ok(task)
}

// Runs the drill of each file, or of standard input where there is none, and writes how many lines were as expected.
fn drills<W: Write>(
    rt: &HostRuntime,
    wanted: Wanted,
    files: Vec<String>,
    output: &mut W,
) -> Result<Tally, Fault> {
    let mut tally = Tally::new();
    begin(wanted, output)?;
    if files.is_empty() {
        tally = drill(rt, wanted, "", None, output)?;
    }
    for file in files {
        let label = label_of(rt.alloc(), file.as_str())?;
        let one = drill(rt, wanted, label.as_str(), Some(file), output)?;
        tally = tally.with(one);
    }
    end(wanted, &tally, output)?;
    Ok(tally)
}

// Lists the examples of each file, or of standard input where there is none.
fn lists<W: Write>(rt: &HostRuntime, files: Vec<String>, output: &mut W) -> Result<Tally, Fault> {
    if files.is_empty() {
        list_one(rt, None, output)?;
    }
    for file in files {
        list_one(rt, Some(file), output)?;
    }
    Ok(Tally::new())
}

fn list_one<W: Write>(rt: &HostRuntime, file: Option<String>, output: &mut W) -> Result<(), Fault> {
    let text = read_script(rt, file)?;
    match list(text.as_slice(), output) {
        Ok(()) => Ok(()),
        Err(_) => Err(Fault::Write),
    }
}

fn begin<W: Write>(wanted: Wanted, output: &mut W) -> Result<(), Fault> {
    match wanted {
        Wanted::Packets if output.write_all(&stream_header()).is_err() => Err(Fault::Write),
        _ => Ok(()),
    }
}

fn end<W: Write>(wanted: Wanted, tally: &Tally, output: &mut W) -> Result<(), Fault> {
    match wanted {
        Wanted::Lines if tally.expected > 0 && tally.write(output).is_err() => Err(Fault::Write),
        _ => Ok(()),
    }
}

// What stands before a line of this file.
fn label_of(alloc: Global, file: &str) -> Result<String, Fault> {
    match format!(in alloc; "{file}: ") {
        Ok(label) => Ok(label),
        Err(_) => Err(Fault::Memory),
    }
}

fn drill<W: Write>(
    rt: &HostRuntime,
    wanted: Wanted,
    label: &str,
    file: Option<String>,
    output: &mut W,
) -> Result<Tally, Fault> {
    let text = read_script(rt, file)?;
    match run(rt.alloc(), wanted, label, text.as_slice(), output) {
        Ok(tally) => Ok(tally),
        Err(Stop::Script(error)) => {
            let advice = second_line(rt.alloc(), label, &error, text.as_slice());
            Err(Fault::Script(error, advice))
        }
        Err(Stop::Write) => Err(Fault::Write),
        Err(Stop::Memory) => Err(Fault::Memory),
    }
}

// What stands behind the text of a fault: nothing where there is no memory for it.
fn second_line(alloc: Global, label: &str, error: &ScriptError, text: &[u8]) -> String {
    let Some(advice) = advice_on(error, text) else {
        return String::new(alloc);
    };
    match format!(in alloc; "\n{label}{advice}") {
        Ok(line) => line,
        Err(_) => String::new(alloc),
    }
}
