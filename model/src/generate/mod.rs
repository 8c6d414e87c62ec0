//! A seeded generator of traces, of inputs for the survey program, and of direct calls.

pub mod aircraft;
pub mod calls;
pub mod canvas;
pub mod cuttings;
pub mod damage;
pub mod input;
pub mod noise;
pub mod random;
pub mod recording;
pub mod scenes;
pub mod traffic;

use crate::samples::Trace;
use crate::sweep::SWEEP_TICKS;
use canvas::Canvas;
use random::Random;

/// What a trace is made of.
#[derive(Clone, Copy, Debug, PartialEq, Eq)]
pub enum Kind {
    Mixed,
    Quiet,
    Traffic,
    Clusters,
    Phantoms,
    Special,
    Crowds,
    Closing,
    Runs,
    Bytes,
}

/// Every kind, with its name on the command line.
pub const KINDS: [(&str, Kind); 10] = [
    ("mixed", Kind::Mixed),
    ("quiet", Kind::Quiet),
    ("traffic", Kind::Traffic),
    ("clusters", Kind::Clusters),
    ("phantoms", Kind::Phantoms),
    ("spi", Kind::Special),
    ("crowds", Kind::Crowds),
    ("closing", Kind::Closing),
    ("runs", Kind::Runs),
    ("bytes", Kind::Bytes),
];

/// A trace of this kind and length. Mixed is one of the other kinds.
pub fn trace(kind: Kind, ticks: usize, random: &mut Random) -> Trace {
    let slopes = random.chance(3, 4);
    let mut canvas = Canvas::new(ticks, slopes);
    paint(kind, &mut canvas, random);
    canvas.trace()
}

fn paint(kind: Kind, canvas: &mut Canvas, random: &mut Random) {
    match kind {
        Kind::Mixed => {
            let (_, other) = random.pick(&KINDS[1..]);
            paint(other, canvas, random);
        }
        Kind::Traffic => traffic::traffic(canvas, random),
        Kind::Quiet => traffic::quiet(canvas, random),
        Kind::Clusters => scenes::repeat(canvas, random, scenes::cluster),
        Kind::Phantoms => scenes::repeat(canvas, random, scenes::phantom),
        Kind::Special => scenes::repeat(canvas, random, scenes::special),
        Kind::Crowds => scenes::repeat(canvas, random, scenes::crowd),
        Kind::Closing => {
            traffic::traffic(canvas, random);
            scenes::closing(canvas, random);
        }
        Kind::Runs => noise::runs(canvas, random),
        Kind::Bytes => noise::bytes(canvas, random),
    }
}

/// The length of a sweep in ticks: mostly short to medium, at times long or at the limit.
pub fn length(random: &mut Random) -> usize {
    let limit = SWEEP_TICKS as i64;
    let ticks = match random.within(1..=200) {
        1..=10 => random.within(0..=12),
        11..=100 => random.within(0..=600),
        101..=175 => random.within(400..=3_000),
        176..=197 => random.within(3_000..=10_000),
        198..=199 => random.within(10_000..=limit),
        _ => limit - random.pick(&[0, 0, 1, 2]),
    };
    ticks as usize
}

/// A length of at most some 600 ticks.
pub fn short_length(random: &mut Random) -> usize {
    random.within(0..=600) as usize
}
