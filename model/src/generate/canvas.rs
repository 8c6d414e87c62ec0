//! A trace in the making: pulses painted one over the other, as a receiver would sample them.

use super::random::Random;
use crate::samples::{Tick, Trace, A, M, N, P};

/// A pulse at the receiver.
#[derive(Clone, Copy, Debug)]
pub struct Pulse {
    pub start: Tick,
    pub width: Tick,
    pub m: bool,
    pub value: u8,
}

/// The samples painted so far, and whether the receiver gives slopes.
#[derive(Clone, Debug)]
pub struct Canvas {
    flags: Vec<u8>,
    values: Vec<u8>,
    slopes: bool,
}

impl Canvas {
    pub fn new(ticks: usize, slopes: bool) -> Canvas {
        Canvas {
            flags: vec![0; ticks],
            values: vec![0; ticks],
            slopes,
        }
    }

    pub fn ticks(&self) -> Tick {
        self.flags.len() as Tick
    }

    pub fn trace(&self) -> Trace {
        Trace::new(&self.flags, &self.values)
    }

    /// Set the sample at a tick. Outside the trace there is nothing to set.
    pub fn set(&mut self, tick: Tick, flag: u8, value: u8) {
        if (0..self.ticks()).contains(&tick) {
            self.flags[tick as usize] = flag;
            self.values[tick as usize] = value;
        }
    }

    /// Set every sample from a tick on to zero.
    pub fn clear_from(&mut self, tick: Tick) {
        for t in tick.max(0)..self.ticks() {
            self.set(t, 0, 0);
        }
    }

    /// Paint a pulse: P at its rise, N at its fall, and where it meets another pulse a value
    /// between the two or the new one.
    pub fn paint(&mut self, pulse: &Pulse, random: &mut Random) {
        let end = pulse.start + pulse.width;
        let mixes = random.chance(1, 2);
        for t in pulse.start.max(0)..end.min(self.ticks()) {
            let place = t as usize;
            let meets = self.flags[place] & A != 0;
            self.values[place] = if meets && mixes {
                self.values[place].midpoint(pulse.value)
            } else {
                pulse.value
            };
            self.flags[place] |= if pulse.m { A | M } else { A };
        }
        if self.slopes {
            self.slope(pulse.start, random.within(1..=2), P);
            let falling = random.within(1..=3);
            self.slope(end - falling + random.within(0..=1), falling, N);
        }
    }

    /// Put one slope on some ticks, in place of the slope that was there.
    fn slope(&mut self, start: Tick, ticks: Tick, slope: u8) {
        for t in start.max(0)..(start + ticks).min(self.ticks()) {
            let flag = &mut self.flags[t as usize];
            *flag = (*flag & !(P | N)) | slope;
        }
    }
}
