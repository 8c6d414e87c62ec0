//! The comparison of a program with the model: programs that agree, and programs that do not.

use model::compare::inputs::{Feeding, Input, Shape};
use model::compare::occurrences::Occurrences;
use model::compare::{compare, Report, Until};
use model::survey::surveyed;
use std::fs::{self, Permissions};
use std::os::unix::fs::PermissionsExt;
use std::path::PathBuf;
use std::process::Command;
use std::sync::{Mutex, MutexGuard, PoisonError};

/// A program in shell, where $MODEL surveys as the model does.
fn program(name: &str, script: &str) -> PathBuf {
    let file = PathBuf::from(env!("CARGO_TARGET_TMPDIR")).join(name);
    let model = env!("CARGO_BIN_EXE_model");
    fs::write(&file, format!("#!/bin/sh\nMODEL='{model}'\n{script}\n")).expect("written");
    fs::set_permissions(&file, Permissions::from_mode(0o755)).expect("executable");
    file
}

/// Only one test at a time writes and runs a program: a program that is being written while
/// another starts cannot be run, and kept inputs of the same seed have the same name.
fn alone() -> MutexGuard<'static, ()> {
    static ALONE: Mutex<()> = Mutex::new(());
    ALONE.lock().unwrap_or_else(PoisonError::into_inner)
}

fn report(name: &str, script: &str) -> Report {
    compare(&program(name, script), 1, Until::Sweeps(700)).expect("the program starts")
}

/// The report's words on the difference. The kept input must be the one that is named.
fn difference(name: &str, script: &str) -> String {
    let _alone = alone();
    let report = report(name, script);
    assert!(!report.is_good());
    let last = format!("{} passed, 1 failed\n", report.passed);
    assert!(report.lines().ends_with(&last));
    let words = report.difference.expect("a difference");
    assert!(words.contains(&format!("seed 1, input {}", report.passed)));
    let kept = words
        .lines()
        .find_map(|line| line.strip_prefix("the input is kept in "));
    let kept = kept.expect("the name of a file");
    let input = Input::new(1, report.passed);
    assert_eq!(fs::read(kept).expect("a file"), input.frames);
    fs::remove_file(kept).expect("removed");
    words
}

#[test]
fn a_program_that_surveys_as_the_model_does_agrees() {
    let _alone = alone();
    let report = report("right", "exec \"$MODEL\" survey");
    assert!(report.is_good(), "{}", report.lines());
    assert!(report.occurrences.sweeps() >= 700);
    let last = format!("{} passed, 0 failed\n", report.passed);
    assert!(report.lines().ends_with(&last));
}

#[test]
fn the_command_fails_if_the_comparison_does() {
    let _alone = alone();
    for (name, script, status) in [("well", "exec \"$MODEL\" survey", 0), ("ill", "exit 3", 1)] {
        let run = Command::new(env!("CARGO_BIN_EXE_model"))
            .args(["compare", "--seed", "1", "--sweeps", "1", "--program"])
            .arg(program(name, script))
            .env("TMPDIR", env!("CARGO_TARGET_TMPDIR"))
            .output()
            .expect("the model starts");
        assert_eq!(run.status.code(), Some(status), "{name}");
        let last = format!(" passed, {status} failed\n");
        assert!(String::from_utf8_lossy(&run.stdout).ends_with(&last));
    }
}

#[test]
fn another_line_is_named_from_both_sides() {
    let words = difference("line", "\"$MODEL\" survey | sed 5s/^11/12/");
    assert!(words.contains("standard output, line 5:\n  model:   11"));
    assert!(words.contains("  program: 12"));
}

#[test]
fn a_line_too_few_and_a_line_too_many_are_noticed() {
    let words = difference("few", "\"$MODEL\" survey | sed '$d'");
    assert!(words.contains("program: (no line)"));
    let words = difference("many", "\"$MODEL\" survey; echo 1f09");
    assert!(words.contains("model:   (no line)\n  program: 1f09"));
}

#[test]
fn another_refusal_on_standard_error_is_noticed() {
    for (name, edit) in [
        ("byte", "s/$/0/"),
        ("number", "s/refusal 9/refusal 8/"),
        ("none", "d"),
    ] {
        let script = format!("{{ \"$MODEL\" survey 2>&1 >&3 3>&- | sed '{edit}' >&2; }} 3>&1");
        let words = difference(name, &script);
        assert!(words.contains("standard error, line 1:\n  model:   refusal 9 at byte"));
    }
}

#[test]
fn a_program_that_fails_or_does_nothing_is_noticed() {
    assert!(difference("status", "\"$MODEL\" survey; exit 3").contains("exit status: 3"));
    assert!(difference("nothing", "exit 0").contains("program: (no line)"));
}

#[test]
fn what_never_occurred_is_named() {
    let mut occurrences = Occurrences::none();
    let input = Input::new(1, 0);
    occurrences.add(&input, &surveyed(&input.frames));
    let missing = occurrences.missing();
    for name in [
        "lost",
        "military",
        "refusal 6",
        "refusal 9, odd",
        "openings during a sweep",
    ] {
        assert!(missing.iter().any(|other| other == name), "{name}");
    }
    assert!(missing
        .iter()
        .any(|other| other.contains("each byte of a full line")));
    assert!(!missing.iter().any(|other| other == "inputs without a line"));
}

#[test]
fn inputs_come_in_every_shape_and_again_from_the_same_seed() {
    let inputs: Vec<Input> = (0..40).map(|number| Input::new(7, number)).collect();
    for shape in [
        Shape::Empty,
        Shape::Endless,
        Shape::Straddling,
        Shape::Overfull,
        Shape::Whole,
        Shape::Damaged,
    ] {
        assert!(inputs.iter().any(|input| input.shape == shape), "{shape:?}");
    }
    let files = inputs.iter().filter(|input| input.feeding == Feeding::File);
    assert!((5..25).contains(&files.count()));
    assert_eq!(inputs[3].frames, Input::new(7, 3).frames);
    assert_ne!(inputs[3].frames, Input::new(8, 3).frames);
}
