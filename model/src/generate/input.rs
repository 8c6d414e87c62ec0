//! Inputs for the survey program: sweeps as lines, cut at random.

use super::random::Random;
use super::{trace, Kind};
use crate::frames::{hexadecimal, LINE_SAMPLES};
use crate::samples::Trace;

/// The lines of some sweeps of this kind, with lengths from the given distribution. One sweep in
/// eight is not closed, so the next opening comes during it, or the input ends.
pub fn input(
    kind: Kind,
    sweeps: u64,
    length: fn(&mut Random) -> usize,
    random: &mut Random,
) -> Vec<u8> {
    let mut input = Vec::new();
    for _ in 0..sweeps {
        let ticks = length(random);
        let trace = trace(kind, ticks, random);
        input.extend_from_slice(open_line(random).as_bytes());
        for line in take_lines(&trace, random) {
            input.extend_from_slice(line.as_bytes());
        }
        if random.chance(7, 8) {
            input.extend_from_slice(b"03\n");
        }
    }
    input
}

/// An opening with a valid mode and azimuth.
pub fn open_line(random: &mut Random) -> String {
    let mode = random.within(1..=3);
    let azimuth = random.within(0..=16_383);
    format!("01{mode:02x}{azimuth:04x}\n")
}

/// The trace in pieces of 1 to 64 ticks: all as long as a line holds, all of one tick, or each
/// of a random length.
pub fn take_lines(trace: &Trace, random: &mut Random) -> Vec<String> {
    let longest = LINE_SAMPLES as i64;
    let lengths = random.pick(&[
        (longest, longest),
        (1, 1),
        (1, 8),
        (1, longest),
        (1, longest),
    ]);
    let mut lines = Vec::new();
    let mut start = 0;
    while start < trace.flags().len() {
        let piece = random.within(lengths.0..=lengths.1) as usize;
        let end = (start + piece).min(trace.flags().len());
        lines.push(take_line(
            &trace.flags()[start..end],
            &trace.values()[start..end],
        ));
        start = end;
    }
    lines
}

/// The trace in pieces as long as a line holds.
pub fn full_lines(trace: &Trace) -> Vec<String> {
    let flags = trace.flags().chunks(LINE_SAMPLES);
    flags
        .zip(trace.values().chunks(LINE_SAMPLES))
        .map(|(flags, values)| take_line(flags, values))
        .collect()
}

/// One `02` line.
pub fn take_line(flags: &[u8], values: &[u8]) -> String {
    let pairs: Vec<u8> = flags
        .iter()
        .zip(values)
        .flat_map(|(&flag, &value)| [flag, value])
        .collect();
    format!("02{}\n", hexadecimal(&pairs))
}
