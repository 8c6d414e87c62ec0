//! Scenes: replies placed so that they meet in the ways that the rules tell apart.

use super::aircraft::Aircraft;
use super::canvas::Canvas;
use super::random::Random;
use crate::samples::Tick;

/// The spacings of F1 at which two replies meet.
const SPACINGS: [Tick; 22] = [
    3, 4, 5, 6, 7, 8, 9, 10, 11, 12, 13, 14, 15, 16, 24, 36, 168, 203, 204, 204, 205, 206,
];

/// Paint one scene after another, with random gaps, over the whole trace. A scene paints from
/// its tick on and returns the ticks it fills.
pub fn repeat(
    canvas: &mut Canvas,
    random: &mut Random,
    scene: fn(&mut Canvas, Tick, &mut Random) -> Tick,
) {
    let mut tick = random.within(0..=40);
    while tick < canvas.ticks() {
        tick += scene(canvas, tick, random) + random.within(0..=300);
    }
}

/// Two to six replies, each at a telling spacing after the one before.
pub fn cluster(canvas: &mut Canvas, tick: Tick, random: &mut Random) -> Tick {
    let same_value = random.chance(1, 4);
    let first = Aircraft::new(random);
    let mut offset = 0;
    for _ in 0..random.within(2..=6) {
        let mut aircraft = Aircraft::new(random);
        if same_value {
            aircraft.value = first.value;
        }
        aircraft.paint(canvas, tick + offset, random);
        offset += random.pick(&SPACINGS);
    }
    offset
}

/// Two replies 12m ticks apart, with a pulse of the first at position i and of the second at
/// position i+14−m, which together make a false bracket.
pub fn phantom(canvas: &mut Canvas, tick: Tick, random: &mut Random) -> Tick {
    let m = random.within(2..=13) as usize;
    let i = random.within(1..=m as i64 - 1) as usize;
    let mut first = Aircraft::bare(random);
    let mut second = Aircraft::bare(random);
    if random.chance(1, 4) {
        first = Aircraft::new(random);
        second = Aircraft::new(random);
    }
    first.pulses[i] = true;
    second.pulses[i + 14 - m] = true;
    first.paint(canvas, tick, random);
    let slip = random.pick(&[-2, -1, 0, 0, 0, 0, 1, 2]);
    second.paint(canvas, tick + 12 * m as Tick + slip, random);
    12 * m as Tick + 206
}

/// A reply with C2 and SPI, which lie 168 ticks apart; half of these have every pulse.
pub fn special(canvas: &mut Canvas, tick: Tick, random: &mut Random) -> Tick {
    let mut aircraft = Aircraft::new(random);
    aircraft.pulses[3] = true;
    aircraft.pulses[17] = true;
    if random.chance(1, 2) {
        aircraft.pulses = [true; 18];
    }
    aircraft.paint(canvas, tick, random);
    206
}

/// Five to ten bare replies with their F1 close together.
pub fn crowd(canvas: &mut Canvas, tick: Tick, random: &mut Random) -> Tick {
    let mut offset = 0;
    for _ in 0..random.within(5..=10) {
        Aircraft::bare(random).paint(canvas, tick + offset, random);
        offset += random.within(2..=9);
    }
    offset + random.within(0..=206)
}

/// Eight replies that are all left for the close: of n ticks, four F1 from n−384 on and four
/// from 206 ticks later on, the last with its F2 167 ticks later, at n−2.
pub fn closing(canvas: &mut Canvas, random: &mut Random) {
    let start = canvas.ticks() - 384;
    if random.chance(3, 4) {
        canvas.clear_from(start - 206);
    }
    for group in [0, 206] {
        for place in 0..4 {
            let slip = i64::from(random.chance(1, 16));
            let mut f1 = Aircraft::bare(random);
            f1.widths = (2, 2);
            let mut f2 = f1.clone();
            f1.pulses[14] = false;
            f2.pulses[0] = false;
            let q = start + group + 3 * place + slip;
            f1.paint(canvas, q, random);
            f2.paint(canvas, q - group / 206, random);
        }
    }
}
