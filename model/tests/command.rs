//! The command line: output, exit status, and errors that name what is wrong.

use std::io::Write;
use std::process::{Command, Output, Stdio};

fn model(arguments: &[&str], input: &[u8]) -> Output {
    let mut child = Command::new(env!("CARGO_BIN_EXE_model"))
        .args(arguments)
        .stdin(Stdio::piped())
        .stdout(Stdio::piped())
        .stderr(Stdio::piped())
        .spawn()
        .expect("the program starts");
    // A program that reads no input may end before it is written; that is no error here.
    let _ = child.stdin.take().expect("a pipe").write_all(input);
    child.wait_with_output().expect("the program ends")
}

fn text(bytes: &[u8]) -> &str {
    std::str::from_utf8(bytes).expect("text")
}

#[test]
fn wrong_usage_is_named_with_status_2() {
    for (arguments, named) in [
        (vec![], "a command is missing"),
        (vec!["fly"], "'fly'"),
        (vec!["survey", "--fast"], "'--fast'"),
        (vec!["survey", "a", "b"], "'b'"),
        (vec!["generate"], "--seed is missing"),
        (vec!["generate", "--seed"], "--seed needs a value"),
        (vec!["generate", "--seed", "x"], "'x'"),
        (vec!["generate", "--seed", "1", "--kind", "loud"], "'loud'"),
        (vec!["generate", "--seed", "1", "--seed", "2"], "twice"),
        (vec!["record", "--seed", "1"], "--scene is missing"),
        (vec!["record", "--seed", "1", "--scene", "sea"], "'sea'"),
        (vec!["trace", "--seed", "1"], "--ticks is missing"),
        (vec!["trace", "--seed", "1", "--ticks", "32769"], "32769"),
        (vec!["stats", "--seed", "1"], "--sweeps is missing"),
        (
            vec!["compare", "--seed", "1", "--sweeps", "1"],
            "--program is missing",
        ),
        (
            vec!["compare", "--program", "p", "--seed", "1"],
            "--sweeps or --seconds",
        ),
        (vec!["input", "--seed", "1"], "--number is missing"),
    ] {
        let output = model(&arguments, b"");
        assert_eq!(output.status.code(), Some(2), "{arguments:?}");
        assert!(text(&output.stderr).contains(named), "{arguments:?}");
        assert!(output.stdout.is_empty());
    }
}

#[test]
fn a_file_that_cannot_be_read_is_named_with_status_1() {
    let output = model(&["survey", "no-such-file"], b"");
    assert_eq!(output.status.code(), Some(1));
    assert!(text(&output.stderr).contains("no-such-file"));
}

#[test]
fn help_lists_the_commands_and_kinds() {
    let output = model(&["--help"], b"");
    assert_eq!(output.status.code(), Some(0));
    for word in ["survey", "generate", "trace", "stats", "compare", "mixed"] {
        assert!(text(&output.stdout).contains(word), "{word}");
    }
}

#[test]
fn survey_prints_a_refusal_with_status_0() {
    let output = model(&["survey"], b"01010000\n03\n03\n");
    assert_eq!(output.status.code(), Some(0));
    let expected = "12000000000000000000000000\n1f03\n";
    assert_eq!(text(&output.stdout), expected);
    assert_eq!(text(&output.stderr), "refusal 3 at byte 15\n");
}

#[test]
fn generated_frames_are_surveyed() {
    let frames = model(&["generate", "--seed", "3", "--sweeps", "4"], b"").stdout;
    assert!(frames.iter().filter(|&&byte| byte == b'\n').count() > 8);
    let output = model(&["survey"], &frames);
    assert!(text(&output.stdout)
        .lines()
        .any(|line| line.starts_with("12")));
    let kind = ["generate", "--seed", "3", "--kind", "quiet", "--damage"];
    assert_ne!(model(&kind, b"").stdout, model(&kind[..5], b"").stdout);
}

#[test]
fn a_recording_is_printed_whole_or_damaged() {
    let scene = ["record", "--seed", "1", "--scene", "quiet", "--damage"];
    let (damaged, whole) = (model(&scene, b""), model(&scene[..5], b""));
    assert!(text(&whole.stdout).starts_with("0101"));
    assert!(text(&whole.stdout).ends_with("\n03\n"));
    assert_ne!(whole.stdout, damaged.stdout);
}

#[test]
fn trace_prints_its_lines_in_order() {
    let output = model(
        &["trace", "--seed", "1", "--kind", "spi", "--ticks", "900"],
        b"",
    );
    let lines: Vec<&str> = text(&output.stdout).lines().collect();
    assert!(lines[0].starts_with("flags ") && lines[0].len() == 6 + 1_800);
    assert!(lines[1].starts_with("values ") && lines[1].len() == 7 + 1_800);
    assert!(lines[2].starts_with("edges ") && lines[2].contains(":a"));
    let records = &lines[3..lines.len() - 1];
    assert!(records
        .iter()
        .all(|line| line.starts_with("record ") && line.len() == 43));
    let totals: Vec<&str> = lines[lines.len() - 1].split(' ').collect();
    assert_eq!((totals[0], totals.len()), ("totals", 7));
    assert_eq!(totals[2], records.len().to_string());
}

#[test]
fn an_empty_trace_has_lines_without_words() {
    let output = model(&["trace", "--seed", "1", "--ticks", "0"], b"");
    let expected = "flags\nvalues\nedges\ntotals 0 0 0 0 0 0\n";
    assert_eq!(text(&output.stdout), expected);
}
