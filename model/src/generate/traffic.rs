//! Traffic: replies that arrive at random, as from aircraft all around.

use super::aircraft::Aircraft;
use super::canvas::{Canvas, Pulse};
use super::random::Random;

/// A few single pulses, too few for brackets.
pub fn quiet(canvas: &mut Canvas, random: &mut Random) {
    for _ in 0..random.within(0..=3) {
        let pulse = Pulse {
            start: random.within(0..=canvas.ticks()),
            width: random.within(1..=6),
            m: random.chance(1, 2),
            value: random.byte(0..=255),
        };
        canvas.paint(&pulse, random);
    }
}

/// Poisson traffic of 0.5 to 40 replies per 1,000 ticks. Some began before the sweep opened.
pub fn traffic(canvas: &mut Canvas, random: &mut Random) {
    let per_10_000_ticks = random.pick(&[5, 10, 20, 40, 80, 160, 280, 400]);
    for tick in -204..canvas.ticks() {
        if random.chance(per_10_000_ticks, 10_000) {
            Aircraft::new(random).paint(canvas, tick, random);
        }
    }
}
