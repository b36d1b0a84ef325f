// Made from crates/host_bench/src/main.rt by rust/translate: change it there.
// What only clauses name is unused here, and some forms are those that a prover reads best.
#![allow(unused_imports, unused_variables, unused_must_use, dead_code, clippy::all)]
//! The jobs of a host of many sockets, and of a link that loses, on inputs made from a seed.
//!
//! `host_bench many SOCKETS SEED SHARE` and `host_bench recovery SEED SHARE` print a digest of what came of the job,
//! and no times.

use smoltcp_proved::kit::HostRuntime;

mod clock;
mod draw;
mod link;
mod many;
mod recovery;
mod side;

use crate::draw::Draw;
use crate::many::many;
use crate::recovery::recovery;
use smoltcp_proved::kit::alloc::AllocError;
use smoltcp_proved::kit::env;
use std::process::ExitCode;

const USAGE: &str = "\
usage: host_bench many SOCKETS SEED SHARE
       host_bench recovery SEED SHARE

Runs a job on inputs made from SEED and prints a digest of what came of it.

SOCKETS  how many connections there are: 1 to 20000
SEED     0 to 4294967295
SHARE    how much of the job is done, in thousandths: 1 to 1000
";

// What the arguments ask for.
#[derive(Debug, Clone, Copy)]
enum Job {
    Many { sockets: usize },
    Recovery,
}

#[derive(Debug, Clone, Copy)]
struct Task {
    job: Job,
    seed: u32,
    share: u32,
}

fn main() -> ExitCode {
    let rt = HostRuntime;
    let Some(task) = task_of(&rt) else {
        let _ = rt.eprint(USAGE);
        return ExitCode::FAILURE;
    };
    match run(&rt, task) {
        Ok(()) => ExitCode::SUCCESS,
        Err(_) => ExitCode::FAILURE,
    }
}

fn task_of(rt: &HostRuntime) -> Option<Task> {
    let mut args = env::args(rt).ok()?;
    let _program = args.next();
    let word = args.next()?;
    let job = match word.as_str() {
        "many" => Job::Many { sockets: args.next()?.as_str().parse::<usize>().ok()? },
        "recovery" => Job::Recovery,
        _ => return None,
    };
    let seed = args.next()?.as_str().parse::<u32>().ok()?;
    let share = args.next()?.as_str().parse::<u32>().ok()?;
    if share > 1000 || args.next().is_some() {
        return None;
    }
    Some(Task { job, seed, share })
}

fn run(rt: &HostRuntime, task: Task) -> Result<(), AllocError> {
    let mut draw = Draw::new(task.seed);
    let digest = match task.job {
        Job::Many { sockets } => many(rt.alloc(), sockets, task.share, &mut draw)?,
        Job::Recovery => recovery(rt.alloc(), task.share, &mut draw)?,
    };
    let _ = rt.println(format_args!("{digest}"));
    Ok(())
}
