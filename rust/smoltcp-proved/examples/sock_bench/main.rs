// Made from crates/sock_bench/src/main.rt by rust/translate: change it there.
// What only clauses name is unused here, and some forms are those that a prover reads best.
#![allow(unused_imports, unused_variables, unused_must_use, dead_code, clippy::all)]
//! The jobs that users of the sockets wait for, on inputs made from a seed: what `bench/run` takes the time of.
//!
//! `sock_bench JOB SEED SHARE` prints a digest of all that the job's calls answered, and no times.

use smoltcp_proved::kit::{HostRuntime, String};

mod datagrams;
mod plan;
mod station;
mod talks;
mod transfer;

use crate::datagrams::datagrams;
use crate::plan::{clean_transfers, lossy_transfers};
use crate::talks::talks;
use smoltcp_proved::kit::alloc::{AllocError, Global};
use smoltcp_proved::kit::env;
use smoltcp_proved::proved::bench_parts::digest::Digest;
use smoltcp_proved::proved::bench_parts::random::{Random, source};
use std::process::ExitCode;

const USAGE: &str = "\
usage: sock_bench JOB SEED SHARE

Runs a job on inputs made from SEED and prints a digest of what came of it.

JOB    bytes, lossy, conversations, datagrams, or all
SEED   0 to 4294967295
SHARE  how much of the job is done, in thousandths: 1 to 1000
";

fn main() -> ExitCode {
    let rt = HostRuntime;
    let Some(task) = task_of(&rt) else {
        let _ = rt.eprint(USAGE);
        return ExitCode::FAILURE;
    };
    match run(&rt, &task) {
        Ok(()) => ExitCode::SUCCESS,
        Err(_) => ExitCode::FAILURE,
    }
}

// What the arguments ask for.
struct Task {
    job: String,
    seed: u32,
    share: u32,
}

fn task_of(rt: &HostRuntime) -> Option<Task> {
    let mut args = env::args(rt).ok()?;
    let _program = args.next();
    let job = args.next()?;
    let seed = args.next()?.as_str().parse::<u32>().ok()?;
    let share = args.next()?.as_str().parse::<u32>().ok()?;
    if share > 1000 || args.next().is_some() {
        return None;
    }
    Some(Task { job, seed, share })
}

fn run(rt: &HostRuntime, task: &Task) -> Result<(), AllocError> {
    let mut random = Random::new(task.seed);
    let source = source(rt.alloc(), &mut random)?;
    for job in ["bytes", "lossy", "conversations", "datagrams"] {
        if task.job.as_str() == job || task.job.as_str() == "all" {
            let mut digest = Digest::new();
            run_job(rt.alloc(), job, task.share, source.as_slice(), &mut random, &mut digest)?;
            let _ = rt.println(format_args!("{job} {:016x} of {} bytes", digest.value(), digest.bytes));
        }
    }
    Ok(())
}

fn run_job(
    alloc: Global,
    job: &str,
    share: u32,
    source: &[u8],
    random: &mut Random,
    digest: &mut Digest,
) -> Result<(), AllocError> {
    if job == "bytes" {
        clean_transfers(alloc, share, source, random, digest)
    } else if job == "lossy" {
        lossy_transfers(alloc, share, source, random, digest)
    } else if job == "conversations" {
        talks(alloc, share, source, random, digest)
    } else {
        datagrams(alloc, share, source, random, digest)
    }
}
