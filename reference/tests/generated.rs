//! Generated scripts, each record held against the validity check, the lent state and the ledger.

mod common;

use std::process::{Command, Stdio};

use common::*;
use reference::generator::{generate, RECORDS};
use reference::limits::SCRIPT;
use reference::run_script;
use reference::selfcheck::self_check;
use reference::tally::Tally;

#[test]
fn generated_scripts_check_out() {
    let mut tally = Tally::default();
    for index in 0..3_000 {
        let script = generate(2024, index, RECORDS, &mut tally);
        self_check(&script).unwrap_or_else(|what| panic!("script {index}: {what}"));
    }
    let report = tally.report();
    let missing = "refusals, tails and changes of bases that did not occur\n";
    assert!(report.ends_with(missing), "{report}");
}

#[test]
fn long_scripts_check_out() {
    let mut tally = Tally::default();
    for index in 0..40 {
        let script = generate(7, index, 2_000, &mut tally);
        self_check(&script).unwrap_or_else(|what| panic!("script {index}: {what}"));
    }
}

#[test]
fn a_seed_gives_the_same_scripts() {
    let make = |seed: u64, index: u64| generate(seed, index, 80, &mut Tally::default());
    for index in 0..50 {
        assert_eq!(make(5, index), make(5, index));
    }
    assert_ne!(make(5, 1), make(5, 2));
    assert_ne!(make(5, 1), make(6, 1));
}

const REFERENCE: &str = env!("CARGO_BIN_EXE_reference");

#[test]
fn the_binary_runs_scripts() {
    for index in 0..10 {
        let script = generate(3, index, 50, &mut Tally::default());
        assert_eq!(run_binary(REFERENCE, &[], &script), run_script(&script));
    }
    assert_eq!(run_binary(REFERENCE, &[], &[]), []);
    assert_eq!(run_binary(REFERENCE, &[], &[0x40; SCRIPT + 1]), [0x8D]);
    assert_eq!(run_binary(REFERENCE, &[], &[0x40; 100_000]), [0x8D]);
}

#[test]
fn the_binary_runs_frames() {
    let (mut scripts, mut logs) = (Vec::new(), Vec::new());
    for index in 0..200 {
        let script = generate(4, index, 50, &mut Tally::default());
        write_frame(&mut scripts, &script);
        write_frame(&mut logs, &run_script(&script));
    }
    assert_eq!(run_binary(REFERENCE, &["--framed"], &scripts), logs);
}

#[test]
fn the_generator_writes_files() {
    let dir = std::env::temp_dir().join(format!("reference-test-{}", std::process::id()));
    let generate = |arguments: &[&str]| {
        let status = Command::new(env!("CARGO_BIN_EXE_generate"))
            .args(["11", "20"])
            .arg(&dir)
            .args(arguments)
            .stderr(Stdio::null())
            .status()
            .unwrap();
        assert!(status.success());
    };
    generate(&["--check", "--records", "30"]);
    generate(&["--each", "--records", "30"]);
    let read = |name: &str| std::fs::read(dir.join(name)).unwrap();
    let (mut scripts, mut logs) = (Vec::new(), Vec::new());
    for index in 0..20 {
        let (script, log) = (read(&format!("{index}.script")), read(&format!("{index}.log")));
        assert_eq!(run_script(&script), log);
        write_frame(&mut scripts, &script);
        write_frame(&mut logs, &log);
    }
    assert_eq!((read("scripts"), read("logs")), (scripts, logs));
    std::fs::remove_dir_all(&dir).unwrap();
}
