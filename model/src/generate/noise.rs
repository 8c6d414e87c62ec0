//! Traces that no receiver gives: long runs, and every valid flag byte at random.

use super::canvas::Canvas;
use super::random::Random;
use crate::samples::{A, M, N, P};

/// Runs of 1 to 400 ticks, with short gaps and now and then a slope.
pub fn runs(canvas: &mut Canvas, random: &mut Random) {
    let longest = random.pick(&[8, 16, 40, 400]);
    let one_slope_in = random.pick(&[3, 10, 50]);
    let mut tick = random.within(0..=20);
    while tick < canvas.ticks() {
        let (value, m) = (random.byte(0..=255), random.chance(3, 4));
        for _ in 0..random.within(1..=longest) {
            let slope = if random.chance(1, one_slope_in) {
                random.pick(&[P, N])
            } else {
                0
            };
            canvas.set(tick, A | slope | if m { M } else { 0 }, value);
            tick += 1;
        }
        tick += random.pick(&[1, 1, 2, 3, 8, 20]);
    }
}

/// Every valid flag byte at random, with A on 1 to 15 of 16 ticks.
pub fn bytes(canvas: &mut Canvas, random: &mut Random) {
    let density = random.within(1..=15);
    let spread = random.pick(&[4, 16, 255]);
    for tick in 0..canvas.ticks() {
        let a = if random.chance(density, 16) { A } else { 0 };
        let slope = random.pick(&[0, P, N]);
        let m = random.pick(&[0, M]);
        canvas.set(tick, a | slope | m, random.byte(0..=spread));
    }
}
