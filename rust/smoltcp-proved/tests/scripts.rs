//! Scripts and drills over the proved sources: the main job, and what the repository's programs are tried with. The
//! files of the repository are looked for beside the crate; a packed crate has none, and the tests of them pass there.
use smoltcp_proved::kit::alloc::Global;
use smoltcp_proved::proved::script_program::streams::{Input, Output};
use smoltcp_proved::proved::sock_pair::script::{End, ScriptError, replay};
use smoltcp_proved::proved::socket_script::{Wanted, run};
use std::path::PathBuf;

const HANDSHAKE: &str = "\
pair 64 64 64 64 -
listen b
connect a 1000
dispatch a 0
deliver 0 0 5000
dispatch b 0
deliver 1 0 0
dispatch a 0
deliver 2 0 0
";

fn replayed(text: &[u8]) -> (End, String) {
    let (mut input, mut out) = (Input::new(text), Vec::new());
    let end = replay(Global, &mut input, &mut Output::new(&mut out));
    (end, String::from_utf8(out).expect("a replay prints ASCII"))
}

fn files(folder: &str, suffix: &str) -> Vec<PathBuf> {
    let folder = PathBuf::from(env!("CARGO_MANIFEST_DIR")).join("../..").join(folder);
    let Ok(entries) = folder.read_dir() else { return Vec::new() };
    let files = entries.map(|entry| entry.expect("an entry").path());
    files.filter(|file| file.extension().is_some_and(|end| end == suffix)).collect()
}

#[test]
fn a_handshake() {
    let (end, said) = replayed(HANDSHAKE.as_bytes());
    assert!(matches!(end, End::Done));
    let lines: Vec<&str> = said.lines().collect();
    assert_eq!(lines[2], "emitted 0 SYN seq 1000 ack - win 64 len 0");
    assert_eq!(lines[4], "emitted 1 SYN|ACK seq 5000 ack 1001 win 64 len 0");
    assert_eq!(lines[6], "emitted 2 ACK seq 1001 ack 5001 win 64 len 0");
    assert_eq!(lines[8], "a ESTABLISHED accepted 0 handed-out 0 queued 0");
    assert_eq!(lines[9], "b ESTABLISHED accepted 0 handed-out 0 queued 0");
}

#[test]
fn a_wrong_script_says_its_line() {
    let (end, said) = replayed(b"pair 64 64 64 64 -\nlisten c\n");
    assert!(matches!(end, End::Script(ScriptError::BadWord { line: 2 })));
    assert_eq!(said, "");
}

#[test]
fn the_script_of_the_main_job() {
    let folder = PathBuf::from(env!("CARGO_MANIFEST_DIR")).join("../../crates/pair_replay");
    let Ok(text) = std::fs::read(folder.join("stdin")) else { return };
    let wanted = std::fs::read_to_string(folder.join("stdout")).expect("what it prints");
    assert_eq!(replayed(&text).1, wanted);
}

#[test]
fn examples_run_to_their_ends() {
    for file in files("examples", "script") {
        let (end, said) = replayed(&std::fs::read(&file).expect("a script"));
        assert!(matches!(end, End::Done), "{}", file.display());
        assert!(said.lines().rev().take(2).all(|line| line.contains(" accepted ")), "{}", file.display());
    }
}

#[test]
fn drills_come_to_what_they_expect() {
    for file in files("crates/socket_drill/data", "drill") {
        let (text, mut out) = (std::fs::read(&file).expect("a drill"), Vec::new());
        let Ok(tally) = run(Global, Wanted::Lines, "", &text, &mut out) else {
            panic!("{} is no drill", file.display())
        };
        assert!(tally.expected > 0, "{}", file.display());
        assert_eq!(tally.differences, 0, "{}: {}", file.display(), String::from_utf8_lossy(&out));
    }
}
