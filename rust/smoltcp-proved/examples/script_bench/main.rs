// Made from crates/script_bench/src/main.rt by rust/translate: change it there.
// What only clauses name is unused here, and some forms are those that a prover reads best.
#![allow(unused_imports, unused_variables, unused_must_use, dead_code, clippy::all)]
//! Scripts of two sockets, made from a seed and run: what `bench/run` takes the time of.
//!
//! `script_bench SEED SHARE` prints a digest of all lines that the runs print, and no times.

use smoltcp_proved::kit::HostRuntime;

mod lines;
mod printed;
mod random;
mod text;

use crate::lines::{Kind, script};
use crate::printed::Printed;
use crate::random::Random;
use smoltcp_proved::kit::alloc::AllocError;
use smoltcp_proved::kit::env;
use smoltcp_proved::proved::script_program::streams::Input;
use smoltcp_proved::proved::sock_pair::script::replay;
use std::process::ExitCode;

const USAGE: &str = "\
usage: script_bench SEED SHARE

Runs scripts that are made from SEED and prints a digest of what they print.

SEED   0 to 4294967295
SHARE  how long the scripts are, in thousandths: 1 to 1000
";

// The scripts, and how many rounds each has.
const SCRIPTS: [(Kind, u32); 4] =
    [(Kind::Bulk, 4_000), (Kind::Chatter, 60_000), (Kind::Rough, 20_000), (Kind::Quiet, 30_000)];

// How many scripts of each kind are run.
const TIMES: u32 = 3;

fn main() -> ExitCode {
    let rt = HostRuntime;
    let Some((seed, share)) = numbers(&rt) else {
        let _ = rt.eprint(USAGE);
        return ExitCode::FAILURE;
    };
    match run(&rt, seed, share) {
        Ok(()) => ExitCode::SUCCESS,
        Err(_) => ExitCode::FAILURE,
    }
}

fn numbers(rt: &HostRuntime) -> Option<(u32, u32)> {
    let mut args = env::args(rt).ok()?;
    let _program = args.next();
    let seed = args.next()?.as_str().parse::<u32>().ok()?;
    let share = args.next()?.as_str().parse::<u32>().ok()?;
    if share > 1000 || args.next().is_some() {
        return None;
    }
    Some((seed, share))
}

fn run(rt: &HostRuntime, seed: u32, share: u32) -> Result<(), AllocError> {
    let mut random = Random::new(seed);
    for _ in 0..TIMES {
        run_all(rt, share, &mut random)?;
    }
    Ok(())
}

// Makes and runs a script of each kind.
fn run_all(rt: &HostRuntime, share: u32, random: &mut Random) -> Result<(), AllocError> {
    for (kind, rounds) in SCRIPTS {
        let rounds = (rounds / 1000).wrapping_mul(share);
        let text = script(rt.alloc(), kind, rounds, random)?;
        let mut printed = Printed::new();
        let end = replay(rt.alloc(), &mut Input::new(text.as_slice()), &mut printed);
        let _ = rt.println(format_args!(
            "{} {:016x} of {} bytes, status {}",
            kind.name(),
            printed.value(),
            printed.count,
            end.status()
        ));
    }
    Ok(())
}
