//! Recordings: successive sweeps of one turning antenna over the same aircraft, in full lines.

use super::aircraft::Aircraft;
use super::canvas::Canvas;
use super::input::full_lines;
use super::random::Random;
use super::traffic;
use crate::samples::{Tick, Trace};

/// The antenna turns by so many azimuth counts from sweep to sweep.
const STEP: i64 = 9;

/// An aircraft is in the mainbeam up to this many azimuth counts to either side, and in a
/// sidelobe up to the second number.
const MAINBEAM: i64 = 80;
const SIDELOBE: i64 = 110;

/// What a recording shows.
#[derive(Clone, Copy, Debug, PartialEq, Eq)]
pub struct Scene {
    pub sweeps: i64,
    pub ticks: usize,
    /// Aircraft that answer this antenna.
    aircraft: usize,
    /// Replies to other antennas, which come at random.
    strays_per_100_000_ticks: i64,
}

/// Every scene, with its name on the command line. Their sweeps reach some 160, 60 and 80
/// nautical miles.
pub const SCENES: [(&str, Scene); 3] = [
    (
        "quiet",
        Scene {
            sweeps: 5,
            ticks: 16_384,
            aircraft: 3,
            strays_per_100_000_ticks: 2,
        },
    ),
    (
        "terminal",
        Scene {
            sweeps: 12,
            ticks: 6_144,
            aircraft: 8,
            strays_per_100_000_ticks: 40,
        },
    ),
    (
        "busy",
        Scene {
            sweeps: 10,
            ticks: 8_192,
            aircraft: 40,
            strays_per_100_000_ticks: 800,
        },
    ),
];

/// An aircraft that answers the antenna: where it is, and its replies in mode A and in mode C.
struct Target {
    q: Tick,
    azimuth: i64,
    replies: [Aircraft; 2],
}

/// The lines of a recording. Mode A and mode C take turns, and every sweep is closed.
pub fn recording(scene: &Scene, random: &mut Random) -> Vec<u8> {
    let targets = targets(scene, random);
    let start = random.within(0..=16_383 - scene.sweeps * STEP);
    let mut lines = String::new();
    for sweep in 0..scene.sweeps {
        let in_mode_c = sweep % 2 == 1;
        let turned = sweep * STEP;
        let trace = sweep_trace(scene, &targets, turned, in_mode_c, random);
        let mode = if in_mode_c { 3 } else { 1 };
        lines += &format!("01{mode:02x}{:04x}\n", start + turned);
        lines += &full_lines(&trace).concat();
        lines += "03\n";
    }
    lines.into_bytes()
}

/// The aircraft of a scene. Of three, one flies close behind the one before.
fn targets(scene: &Scene, random: &mut Random) -> Vec<Target> {
    let mut targets: Vec<Target> = Vec::new();
    for _ in 0..scene.aircraft {
        let anywhere = random.within(300..=scene.ticks as Tick - 300);
        let q = match targets.last() {
            Some(before) if random.chance(1, 3) => before.q + random.within(5..=200),
            _ => anywhere,
        };
        targets.push(Target {
            q,
            azimuth: random.within(-MAINBEAM..=scene.sweeps * STEP + MAINBEAM),
            replies: [clean(random), clean(random)],
        });
    }
    targets
}

/// A clean reply with a random code.
fn clean(random: &mut Random) -> Aircraft {
    Aircraft {
        jitter: 2,
        slips: 0,
        widths: (3, 4),
        ..Aircraft::new(random)
    }
}

/// One sweep: the aircraft in the beam, the strays, and a few single pulses.
fn sweep_trace(
    scene: &Scene,
    targets: &[Target],
    turned: i64,
    in_mode_c: bool,
    random: &mut Random,
) -> Trace {
    let mut canvas = Canvas::new(scene.ticks, true);
    traffic::quiet(&mut canvas, random);
    for tick in -204..canvas.ticks() {
        if random.chance(scene.strays_per_100_000_ticks, 100_000) {
            Aircraft::new(random).paint(&mut canvas, tick, random);
        }
    }
    for target in targets {
        let aside = target.azimuth - turned;
        if aside.abs() <= SIDELOBE {
            let mut reply = target.replies[usize::from(in_mode_c)].clone();
            reply.mainbeam = if aside.abs() <= MAINBEAM { 16 } else { 0 };
            reply.value = (128 + aside) as u8;
            reply.paint(&mut canvas, target.q, random);
        }
    }
    canvas.trace()
}
