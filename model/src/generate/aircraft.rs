//! One aircraft's reply: framing pulses, code pulses at 12-tick (1.45 µs) spacing, X and SPI.

use super::canvas::{Canvas, Pulse};
use super::random::Random;
use crate::replies::POSITIONS;
use crate::samples::Tick;

/// A reply as an aircraft sends it and the antenna meets it.
#[derive(Clone, Debug)]
pub struct Aircraft {
    /// Which positions have a pulse; 0 is F1, 14 is F2, 17 is SPI.
    pub pulses: [bool; 18],
    pub value: u8,
    /// The most that a pulse's value differs from the aircraft's.
    pub jitter: i64,
    /// Of 16 pulses, how many lie in the mainbeam.
    pub mainbeam: i64,
    /// Of 16 pulses, how many slip by one tick.
    pub slips: i64,
    /// The narrowest and the widest pulse, in ticks.
    pub widths: (Tick, Tick),
}

impl Aircraft {
    /// An aircraft with a random code.
    pub fn new(random: &mut Random) -> Aircraft {
        let mut pulses = [false; 18];
        for pulse in &mut pulses[1..=13] {
            *pulse = random.chance(1, 2);
        }
        pulses[0] = true;
        pulses[7] = random.chance(1, 8);
        pulses[14] = true;
        pulses[17] = random.chance(1, 8);
        Aircraft {
            pulses,
            value: random.byte(0..=255),
            jitter: random.pick(&[0, 2, 4, 10]),
            mainbeam: random.pick(&[0, 8, 15, 15, 16, 16, 16, 16]),
            slips: random.pick(&[0, 0, 1, 4]),
            widths: (3, 5),
        }
    }

    /// An aircraft with framing pulses alone, clean and in the mainbeam.
    pub fn bare(random: &mut Random) -> Aircraft {
        let mut pulses = [false; 18];
        pulses[0] = true;
        pulses[14] = true;
        Aircraft {
            pulses,
            value: random.byte(0..=255),
            jitter: 2,
            mainbeam: 16,
            slips: 0,
            widths: (2, 3),
        }
    }

    /// Paint the reply with F1 at q.
    pub fn paint(&self, canvas: &mut Canvas, q: Tick, random: &mut Random) {
        for k in POSITIONS.into_iter().filter(|&k| self.pulses[k]) {
            let slip = if random.chance(self.slips, 16) {
                random.pick(&[-1, 1])
            } else {
                0
            };
            let value = i64::from(self.value) + random.within(-self.jitter..=self.jitter);
            let pulse = Pulse {
                start: q + 12 * k as Tick + slip,
                width: random.within(self.widths.0..=self.widths.1),
                m: random.chance(self.mainbeam, 16),
                value: value.clamp(0, 255) as u8,
            };
            canvas.paint(&pulse, random);
        }
    }
}
