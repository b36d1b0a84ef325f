// Made from crates/hosted_bench/src/main.rt by rust/translate: change it there.
// What only clauses name is unused here, and some forms are those that a prover reads best.
#![allow(unused_imports, unused_variables, unused_must_use, dead_code, clippy::all)]
//! The conversations of `sock_bench` between hosts of `net_host`, on inputs made from a seed: a program of its own, so
//! that the code of the others stays what it is.
//!
//! `hosted_bench SEED SHARE` prints a digest of all that the job's calls answered, and no times.

use smoltcp_proved::kit::HostRuntime;

mod hosted;

use crate::hosted::hosted;
use smoltcp_proved::kit::alloc::AllocError;
use smoltcp_proved::kit::env;
use smoltcp_proved::proved::bench_parts::digest::Digest;
use smoltcp_proved::proved::bench_parts::random::{Random, source};
use std::process::ExitCode;

const USAGE: &str = "\
usage: hosted_bench SEED SHARE

Runs conversations on inputs made from SEED and prints a digest of what came of it.

SEED   0 to 4294967295
SHARE  how much of the job is done, in thousandths: 1 to 1000
";

#[derive(Debug, Clone, Copy)]
struct Task {
    seed: u32,
    share: u32,
}

fn main() -> ExitCode {
    let rt = HostRuntime;
    let Some(task) = task_of(&rt) else {
        let _ = rt.eprint(USAGE);
        return ExitCode::FAILURE;
    };
    match run(&rt, task) {
        Ok(()) => ExitCode::SUCCESS,
        Err(_) => ExitCode::FAILURE,
    }
}

fn task_of(rt: &HostRuntime) -> Option<Task> {
    let mut args = env::args(rt).ok()?;
    let _program = args.next();
    let seed = args.next()?.as_str().parse::<u32>().ok()?;
    let share = args.next()?.as_str().parse::<u32>().ok()?;
    if share > 1000 || args.next().is_some() {
        return None;
    }
    Some(Task { seed, share })
}

fn run(rt: &HostRuntime, task: Task) -> Result<(), AllocError> {
    let mut random = Random::new(task.seed);
    let source = source(rt.alloc(), &mut random)?;
    let mut digest = Digest::new();
    hosted(rt.alloc(), task.share, source.as_slice(), &mut random, &mut digest)?;
    let _ = rt.println(format_args!("{:016x} of {} bytes", digest.value(), digest.bytes));
    Ok(())
}
