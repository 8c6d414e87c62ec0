//! Running the survey program on one input.

use super::inputs::{Feeding, Input};
use std::fs::File;
use std::io::{self, Write};
use std::path::Path;
use std::process::{Child, ChildStdin, Command, ExitStatus, Stdio};
use std::thread;

/// A program that takes longer than this over one input is ended, in seconds.
const LONGEST: &str = "600";

/// What the program did.
#[derive(Clone, Debug)]
pub struct Answer {
    pub printed: Vec<u8>,
    pub errors: Vec<u8>,
    pub status: ExitStatus,
}

/// What the program does on the input. The file has the same bytes as the input.
pub fn answer(program: &Path, input: &Input, file: &Path) -> io::Result<Answer> {
    match input.feeding {
        Feeding::File => {
            let child = start(program, File::open(file)?.into())?;
            end(child)
        }
        Feeding::Pipe { chunk } => {
            let mut child = start(program, Stdio::piped())?;
            let pipe = child.stdin.take().expect("its input is a pipe");
            thread::scope(|scope| {
                let feeder = scope.spawn(|| feed(pipe, &input.frames, chunk));
                let answer = end(child);
                feeder.join().expect("feeding does not panic")?;
                answer
            })
        }
    }
}

fn start(program: &Path, input: Stdio) -> io::Result<Child> {
    Command::new("timeout")
        .arg(LONGEST)
        .arg(program)
        .stdin(input)
        .stdout(Stdio::piped())
        .stderr(Stdio::piped())
        .spawn()
}

/// Read both outputs to their ends and wait for the program.
fn end(child: Child) -> io::Result<Answer> {
    let output = child.wait_with_output()?;
    Ok(Answer {
        printed: output.stdout,
        errors: output.stderr,
        status: output.status,
    })
}

/// Write the input in chunks. A program that stops reading early is no error.
fn feed(mut pipe: ChildStdin, input: &[u8], chunk: usize) -> io::Result<()> {
    for part in input.chunks(chunk) {
        match pipe.write_all(part) {
            Err(error) if error.kind() == io::ErrorKind::BrokenPipe => return Ok(()),
            other => other?,
        }
    }
    Ok(())
}
