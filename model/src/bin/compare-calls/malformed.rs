//! Inputs that the program must turn down: each with the words that it must say on standard error.

use crate::form::{end, Placed};
use model::generate::calls::Call;
use std::io::Write;
use std::path::Path;
use std::process::{Command, Stdio};

/// A take of two samples, with its bytes changed.
fn take(change: fn(&mut Vec<u8>)) -> Vec<u8> {
    let call = Call::Take {
        flags: vec![9; 2],
        values: vec![80; 2],
        lent: 72,
    };
    let placed = Placed {
        call,
        shown: true,
        around: 0xff,
        fill: 0,
        starts: (0, 0),
    };
    let mut bytes = placed.bytes();
    change(&mut bytes);
    bytes
}

/// Each input, and what is wrong with it in the program's words.
fn inputs() -> Vec<(Vec<u8>, &'static str)> {
    vec![
        (Vec::new(), "the input ends without its end"),
        (end()[..16].to_vec(), "the input ends without its end"),
        (
            take(|bytes| bytes.truncate(18)),
            "the input ends within flags",
        ),
        (
            take(|bytes| bytes.truncate(20)),
            "the input ends within values",
        ),
        (take(|bytes| bytes[0] = 4), "samples belong to a take"),
        (
            {
                let mut bytes = end();
                bytes[0] = 4;
                bytes
            },
            "an unknown kind of call",
        ),
        (
            take(|bytes| bytes[1] = 2),
            "a processor is shown or not, by 1 or 0",
        ),
        (
            take(|bytes| bytes[7..9].copy_from_slice(&[31, 255])),
            "flags reach beyond their recording",
        ),
        (
            take(|bytes| bytes[11..13].copy_from_slice(&[255, 255])),
            "values reach beyond their recording",
        ),
        (
            take(|bytes| bytes[15..17].copy_from_slice(&[8, 1])),
            "a lent buffer is over 2048 bytes",
        ),
        (
            {
                let mut bytes = end();
                bytes[0] = 1;
                bytes[16] = 1;
                bytes
            },
            "an open is lent no buffer",
        ),
    ]
}

/// Give the program each input. How many it turned down as it must, and how many not.
pub fn check(path: &Path) -> Result<(u64, u64), String> {
    let (mut passed, mut failed) = (0, 0);
    for (bytes, words) in inputs() {
        let (written, said) = run(path, &bytes)?;
        if written == 0 && said == format!("calls: {words}\n") {
            passed += 1;
        } else {
            println!("malformed input: {written} bytes written and said {said:?}, not '{words}'");
            failed += 1;
        }
    }
    Ok((passed, failed))
}

/// How many bytes the program writes for an input, and what it says on standard error.
fn run(path: &Path, input: &[u8]) -> Result<(usize, String), String> {
    let failed = |error| format!("cannot run {}: {error}", path.display());
    let mut child = Command::new(path)
        .stdin(Stdio::piped())
        .stdout(Stdio::piped())
        .stderr(Stdio::piped())
        .spawn()
        .map_err(failed)?;
    // The program may end before it has read everything; that is no error here.
    let _ = child.stdin.take().expect("a pipe").write_all(input);
    let output = child.wait_with_output().map_err(failed)?;
    let said = String::from_utf8_lossy(&output.stderr).into_owned();
    Ok((output.stdout.len(), said))
}
