//! How the program's answer differs from the model's survey.

use super::program::Answer;
use crate::frames::lines;
use crate::survey::{refused_line, Surveyed};

/// A difference, and how many sweeps had been closed in the same way before it.
#[derive(Clone, Debug)]
pub struct Difference {
    pub words: String,
    pub closed: u64,
}

/// The difference of the two, if they do not agree.
pub fn difference(surveyed: &Surveyed, answer: &Answer) -> Option<Difference> {
    let printed = surveyed.printed.as_bytes();
    let errors = surveyed.refused.as_ref().map(refused_line);
    let errors = errors.unwrap_or_default();
    let mut words = String::new();
    words += &stream("standard output", printed, &answer.printed);
    words += &stream("standard error", errors.as_bytes(), &answer.errors);
    if !answer.status.success() {
        words += &format!("the program ended with {}\n", answer.status);
    }
    let closed = closed_alike(printed, &answer.printed);
    (!words.is_empty()).then_some(Difference { words, closed })
}

/// How many sweeps are closed before the first line in which two outputs differ.
fn closed_alike(model: &[u8], program: &[u8]) -> u64 {
    let alike = lines(model)
        .zip(lines(program))
        .take_while(|(expected, found)| expected == found);
    alike.filter(|(line, _)| line.starts_with(b"12")).count() as u64
}

/// The first line in which two outputs differ, from both sides.
fn stream(name: &str, model: &[u8], program: &[u8]) -> String {
    if model == program {
        return String::new();
    }
    let (mut models, mut programs) = (lines(model), lines(program));
    let mut number = 1;
    loop {
        let (expected, found) = (models.next(), programs.next());
        if expected != found {
            let (expected, found) = (shown(expected), shown(found));
            return format!("{name}, line {number}:\n  model:   {expected}\n  program: {found}\n");
        }
        number += 1;
    }
}

/// A line as it can be printed, cut after 200 bytes.
fn shown(line: Option<&[u8]>) -> String {
    match line {
        None => "(no line)".to_string(),
        Some(line) => line[..line.len().min(200)].escape_ascii().to_string(),
    }
}
