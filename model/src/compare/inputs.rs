//! The inputs of a comparison. The same seed and number always give the same input.

use crate::frames::LINE_SAMPLES;
use crate::generate::damage::damaged;
use crate::generate::input::{full_lines, input, open_line, take_lines};
use crate::generate::random::Random;
use crate::generate::{length, short_length, trace, Kind};
use crate::sweep::SWEEP_TICKS;

/// The most bytes that the program reads at once.
pub const READ_BYTES: usize = 65_536;

/// The sweeps of a whole input.
const WHOLE_SWEEPS: u64 = 300;

/// The bytes of a line that never ends.
const ENDLESS_BYTES: usize = 4 << 20;

/// What an input is made to show.
#[derive(Clone, Copy, Debug, PartialEq, Eq)]
pub enum Shape {
    /// No line at all.
    Empty,
    /// Some sweeps, then a line that never ends.
    Endless,
    /// Sweeps in full lines, which meet the ends of reads at each of their bytes.
    Straddling,
    /// A sweep that passes its limit.
    Overfull,
    /// Many sweeps with nothing to refuse.
    Whole,
    /// A few sweeps, damaged.
    Damaged,
}

/// How the program gets an input: from a file, where each read is as long as asked for, or from
/// a pipe that is written in chunks.
#[derive(Clone, Copy, Debug, PartialEq, Eq)]
pub enum Feeding {
    File,
    Pipe { chunk: usize },
}

/// One input.
#[derive(Clone, Debug)]
pub struct Input {
    pub shape: Shape,
    pub feeding: Feeding,
    pub frames: Vec<u8>,
}

impl Input {
    /// The input of this seed and number.
    pub fn new(seed: u64, number: u64) -> Input {
        let mut random = Random::new(seed.rotate_left(32) ^ number);
        let shape = shape(number);
        let frames = frames(shape, &mut random);
        let feeding = match shape {
            Shape::Straddling => Feeding::File,
            _ => feeding(frames.len(), &mut random),
        };
        Input {
            shape,
            feeding,
            frames,
        }
    }
}

/// Most inputs are damaged and small; of twenty, one is whole and has most of the sweeps. The
/// largest comes once.
fn shape(number: u64) -> Shape {
    if number == 2 {
        return Shape::Straddling;
    }
    match number % 100 {
        0 => Shape::Empty,
        1 => Shape::Endless,
        place if place % 20 == 3 => Shape::Whole,
        place if place % 20 == 4 => Shape::Overfull,
        _ => Shape::Damaged,
    }
}

fn frames(shape: Shape, random: &mut Random) -> Vec<u8> {
    match shape {
        Shape::Empty => Vec::new(),
        Shape::Endless => endless(random),
        Shape::Straddling => straddling(random),
        Shape::Overfull => overfull(random),
        Shape::Whole => input(Kind::Mixed, WHOLE_SWEEPS, length, random),
        Shape::Damaged => {
            let lengths = random.pick(&[short_length, length]);
            let sweeps = random.within(1..=4) as u64;
            damaged(&input(Kind::Mixed, sweeps, lengths, random), random)
        }
    }
}

fn feeding(bytes: usize, random: &mut Random) -> Feeding {
    let small = bytes < READ_BYTES;
    let chunk = random.within(if small { 1..=600 } else { 1_000..=100_000 }) as usize;
    let whole = bytes.max(1);
    random.pick(&[
        Feeding::File,
        Feeding::Pipe { chunk },
        Feeding::Pipe { chunk: whole },
    ])
}

fn endless(random: &mut Random) -> Vec<u8> {
    let sweeps = random.within(0..=2) as u64;
    let mut frames = input(Kind::Mixed, sweeps, short_length, random);
    frames.resize(frames.len() + ENDLESS_BYTES, b'0');
    frames
}

/// A sweep of 253 full lines of 259 bytes, with its opening of 9 and its close of 3, is 3 bytes
/// longer than a read. So the ends of reads fall 3, 6, 9, .. bytes before the ends of sweeps,
/// and after 259 sweeps they have fallen on every byte of a full line.
fn straddling(random: &mut Random) -> Vec<u8> {
    let mut frames = Vec::new();
    for _ in 0..260 {
        let trace = trace(Kind::Mixed, 253 * LINE_SAMPLES, random);
        frames.extend_from_slice(open_line(random).as_bytes());
        frames.extend_from_slice(full_lines(&trace).concat().as_bytes());
        frames.extend_from_slice(b"03\n");
    }
    frames
}

fn overfull(random: &mut Random) -> Vec<u8> {
    let over = random.pick(&[1, 2, 63, 64, 500]);
    let trace = trace(Kind::Mixed, SWEEP_TICKS + over, random);
    let takes = take_lines(&trace, random).concat();
    [open_line(random).as_bytes(), takes.as_bytes(), b"03\n"].concat()
}
