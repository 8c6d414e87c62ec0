//! The survey program against the model: both survey the same inputs, and must give the same.

pub mod difference;
pub mod inputs;
pub mod occurrences;
pub mod program;

use crate::survey::surveyed;
use difference::difference;
use inputs::{Feeding, Input};
use occurrences::Occurrences;
use program::answer;
use std::fs;
use std::io;
use std::path::{Path, PathBuf};
use std::time::{Duration, Instant};

/// From this many sweeps on, everything that is counted must have occurred.
pub const EVERYTHING_SWEEPS: u64 = 20_000;

/// When a comparison ends, unless a difference ends it.
#[derive(Clone, Copy, Debug)]
pub enum Until {
    Sweeps(u64),
    Seconds(u64),
}

/// What a comparison found.
#[derive(Clone, Debug)]
pub struct Report {
    pub passed: u64,
    /// The difference that ended it, in lines of words.
    pub difference: Option<String>,
    pub occurrences: Occurrences,
    pub time: Duration,
}

/// Compare the program with the model, up to the first difference.
pub fn compare(program: &Path, seed: u64, until: Until) -> io::Result<Report> {
    let started = Instant::now();
    let mut report = Report {
        passed: 0,
        difference: None,
        occurrences: Occurrences::none(),
        time: Duration::ZERO,
    };
    while report.difference.is_none() && !report.reached(until) {
        report.compare_next(program, seed)?;
        report.time = started.elapsed();
    }
    Ok(report)
}

/// The file for an input. Comparisons at the same time have different files.
fn file(seed: u64, number: u64) -> PathBuf {
    let process = std::process::id();
    std::env::temp_dir().join(format!("compare-{process}-{seed}-{number}.hex"))
}

impl Report {
    /// Compare on the next input. On a difference the input is kept in a file.
    fn compare_next(&mut self, program: &Path, seed: u64) -> io::Result<()> {
        let (number, sweeps) = (self.passed, self.occurrences.sweeps());
        let input = Input::new(seed, number);
        let file = file(seed, number);
        if input.feeding == Feeding::File {
            fs::write(&file, &input.frames)?;
        }
        let surveyed = surveyed(&input.frames);
        self.occurrences.add(&input, &surveyed);
        let difference = difference(&surveyed, &answer(program, &input, &file)?);
        if let Some(difference) = difference {
            fs::write(&file, &input.frames)?;
            let after = sweeps + difference.closed;
            self.difference = Some(format!(
                "difference: seed {seed}, input {number} ({:?}, {:?}), after {after} sweeps\n\
                 the input is kept in {}\n{}",
                input.shape,
                input.feeding,
                file.display(),
                difference.words
            ));
        } else {
            self.passed += 1;
            if input.feeding == Feeding::File {
                fs::remove_file(&file)?;
            }
        }
        Ok(())
    }

    fn reached(&self, until: Until) -> bool {
        match until {
            Until::Sweeps(sweeps) => self.occurrences.sweeps() >= sweeps,
            Until::Seconds(seconds) => self.time.as_secs() >= seconds,
        }
    }

    /// What should have occurred and did not.
    fn missing(&self) -> Vec<String> {
        if self.difference.is_some() || self.occurrences.sweeps() < EVERYTHING_SWEEPS {
            return Vec::new();
        }
        self.occurrences.missing()
    }

    /// Whether nothing failed.
    pub fn is_good(&self) -> bool {
        self.difference.is_none() && self.missing().is_empty()
    }

    /// The report in lines of words, the last with what passed and failed.
    pub fn lines(&self) -> String {
        let missing = self.missing();
        let mut lines = self.occurrences.lines();
        lines += &format!("time: {:.1} s\n", self.time.as_secs_f64());
        if self.occurrences.sweeps() < EVERYTHING_SWEEPS {
            lines += &format!("under {EVERYTHING_SWEEPS} sweeps not everything need occur\n");
        }
        lines += self.difference.as_deref().unwrap_or_default();
        for name in &missing {
            lines += &format!("never occurred: {name}\n");
        }
        let failed = missing.len() + usize::from(self.difference.is_some());
        lines += &format!("{} passed, {failed} failed\n", self.passed);
        lines
    }
}
