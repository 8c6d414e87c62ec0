//! The program crates/test_calls, running: calls go in through one pipe, outcomes come out of
//! another. A thread feeds the one and a thread empties the other, so that neither side waits for
//! the other.

use crate::form::{end, Outcome, TOLD};
use std::io::{Read, Write};
use std::path::Path;
use std::process::{Child, ChildStdin, ChildStdout, Command, Stdio};
use std::sync::mpsc::{sync_channel, Receiver, RecvTimeoutError, SyncSender};
use std::thread;
use std::time::Duration;

/// How long the program may leave an outcome out.
const PATIENCE: Duration = Duration::from_secs(600);

pub struct Program {
    child: Child,
    calls: Option<SyncSender<Vec<u8>>>,
    written: Receiver<Vec<u8>>,
    /// What was written and is not yet used, from this place on.
    chunk: Vec<u8>,
    used: usize,
}

/// Write what is sent, until nothing more is or the program reads no more.
fn feed(sent: &Receiver<Vec<u8>>, mut pipe: ChildStdin) {
    for bytes in sent {
        if pipe.write_all(&bytes).is_err() {
            return;
        }
    }
}

/// Hand on what the program writes, until it writes no more or nobody wants it.
fn empty(mut pipe: ChildStdout, written: &SyncSender<Vec<u8>>) {
    loop {
        let mut chunk = vec![0; 1 << 16];
        match pipe.read(&mut chunk) {
            Ok(0) | Err(_) => return,
            Ok(bytes) => chunk.truncate(bytes),
        }
        if written.send(chunk).is_err() {
            return;
        }
    }
}

impl Program {
    pub fn start(path: &Path) -> Result<Program, String> {
        let name = path.display();
        if !path.is_file() {
            return Err(format!(
                "there is no {name}; 'tools/built test_calls' builds target/bin/test_calls"
            ));
        }
        let mut child = Command::new(path)
            .stdin(Stdio::piped())
            .stdout(Stdio::piped())
            .spawn()
            .map_err(|error| format!("cannot start {name}: {error}"))?;
        let input = child.stdin.take().expect("a pipe");
        let output = child.stdout.take().expect("a pipe");
        let (calls, sent) = sync_channel(2);
        let (sender, written) = sync_channel(16);
        thread::spawn(move || feed(&sent, input));
        thread::spawn(move || empty(output, &sender));
        Ok(Program {
            child,
            calls: Some(calls),
            written,
            chunk: Vec::new(),
            used: 0,
        })
    }

    /// Hand calls on to be written. Their outcomes are to be read before many more are sent.
    pub fn send(&self, bytes: Vec<u8>) -> Result<(), String> {
        let calls = self.calls.as_ref().expect("the input has not ended");
        let sent = calls.send(bytes);
        sent.map_err(|_| "the program reads no more calls".to_string())
    }

    /// The next outcome, of a call that lent so many bytes.
    pub fn outcome(&mut self, lent: usize) -> Result<Outcome, String> {
        let wanted = TOLD + lent;
        let mut bytes = Vec::with_capacity(wanted);
        while bytes.len() < wanted {
            if self.used == self.chunk.len() {
                self.next_chunk()?;
            }
            let end = self.chunk.len().min(self.used + wanted - bytes.len());
            bytes.extend_from_slice(&self.chunk[self.used..end]);
            self.used = end;
        }
        Ok(Outcome(bytes))
    }

    fn next_chunk(&mut self) -> Result<(), String> {
        let chunk = self.written.recv_timeout(PATIENCE);
        self.chunk = chunk.map_err(|why| match why {
            RecvTimeoutError::Timeout => format!("no outcome for {} s", PATIENCE.as_secs()),
            RecvTimeoutError::Disconnected => "the program ended before an outcome".to_string(),
        })?;
        self.used = 0;
        Ok(())
    }

    /// End the input. The program must write nothing more, and end well.
    pub fn finish(mut self) -> Result<(), String> {
        self.send(end())?;
        self.calls = None;
        if self.used < self.chunk.len() || self.next_chunk().is_ok() {
            return Err("the program wrote something after its last outcome".to_string());
        }
        match self.child.wait() {
            Ok(status) if status.success() => Ok(()),
            Ok(status) => Err(format!("the program ended with {status}")),
            Err(error) => Err(format!("the program cannot be waited for: {error}")),
        }
    }
}

impl Drop for Program {
    /// A program that did not end by itself is ended.
    fn drop(&mut self) {
        let _ = self.child.kill();
        let _ = self.child.wait();
    }
}
