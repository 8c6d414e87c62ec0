//! Lists of direct calls to open, take and close, some of which are to be refused.

use super::random::Random;
use super::{trace, Kind};
use crate::machine::Totals;
use crate::refusals::Refusal;
use crate::samples::Trace;
use crate::sweep::{take_bytes, Processor, CLOSE_BYTES, PIECE_TICKS};

/// One call, with the length of the buffer that it lends.
#[derive(Clone, Debug)]
pub enum Call {
    Open {
        mode: u8,
        azimuth: u16,
    },
    Take {
        flags: Vec<u8>,
        values: Vec<u8>,
        lent: usize,
    },
    Close {
        lent: usize,
    },
}

/// What an accepted call returns beside the processor.
#[derive(Clone, Copy, Debug, PartialEq, Eq)]
pub enum Answer {
    Opened,
    Taken { written: usize },
    Closed { written: usize, totals: Totals },
}

impl Call {
    /// The length of the buffer that the call lends.
    pub fn lent(&self) -> usize {
        match self {
            Call::Open { .. } => 0,
            Call::Take { lent, .. } | Call::Close { lent } => *lent,
        }
    }

    /// Carry the call out with this buffer.
    pub fn carry_out(
        &self,
        processor: &mut Processor,
        buffer: &mut [u8],
    ) -> Result<Answer, Refusal> {
        match self {
            Call::Open { mode, azimuth } => {
                *processor = Processor::open(*mode, *azimuth)?;
                Ok(Answer::Opened)
            }
            Call::Take { flags, values, .. } => {
                let written = processor.take(flags, values, buffer)?;
                Ok(Answer::Taken { written })
            }
            Call::Close { .. } => {
                let closed = processor.close(buffer)?;
                let (written, totals) = (closed.written, closed.totals);
                Ok(Answer::Closed { written, totals })
            }
        }
    }
}

/// A list of calls: openings, the pieces of one trace, closes, and among them calls that may be
/// refused.
pub fn calls(random: &mut Random) -> Vec<Call> {
    let ticks = random.pick(&[0, 300, 1_000, 3_000, 9_000, 40_000]);
    let trace = trace(Kind::Mixed, ticks, random);
    let mut calls = vec![wild_opening(random)];
    if random.chance(15, 16) {
        calls.push(Call::Open {
            mode: random.byte(1..=3),
            azimuth: random.within(0..=16_383) as u16,
        });
    }
    let mut start = 0;
    while start < ticks {
        if random.chance(1, 4) {
            calls.push(faulty(random));
        }
        let end = (start + piece_ticks(random)).min(ticks);
        calls.push(take(&trace, start, end, random));
        start = end;
    }
    let short = CLOSE_BYTES - random.place(2) * (1 + random.place(CLOSE_BYTES));
    calls.push(Call::Close { lent: short });
    let lent = CLOSE_BYTES + random.place(100);
    calls.push(Call::Close { lent });
    calls.push(faulty(random));
    calls
}

/// An opening that may be out of range.
fn wild_opening(random: &mut Random) -> Call {
    Call::Open {
        mode: random.byte(0..=4),
        azimuth: random.within(0..=24_000) as u16,
    }
}

/// The length of a piece: at times none, at times at the limit.
pub(super) fn piece_ticks(random: &mut Random) -> usize {
    match random.within(1..=10) {
        1 => 0,
        2..=4 => random.within(1..=64) as usize,
        5..=8 => random.within(1..=1_500) as usize,
        _ => PIECE_TICKS,
    }
}

/// A take of part of the trace, with a buffer that suffices.
fn take(trace: &Trace, start: usize, end: usize, random: &mut Random) -> Call {
    Call::Take {
        flags: trace.flags()[start..end].to_vec(),
        values: trace.values()[start..end].to_vec(),
        lent: take_bytes(end - start) + random.place(30),
    }
}

/// A take with some of the faults 4, 5, 7 and 8, or a close with too short a buffer.
fn faulty(random: &mut Random) -> Call {
    if random.chance(1, 8) {
        let lent = random.place(CLOSE_BYTES);
        return Call::Close { lent };
    }
    let mut ticks = random.within(1..=800) as usize;
    if random.chance(1, 3) {
        ticks += PIECE_TICKS;
    }
    let mut flags = vec![9; ticks];
    let mut values = vec![80; ticks];
    let mut lent = take_bytes(ticks);
    let fault = random.within(1..=3);
    if fault == 1 || random.chance(1, 4) {
        values.pop();
    }
    if fault == 2 || random.chance(1, 4) {
        lent -= 1;
    }
    if fault == 3 || random.chance(1, 4) {
        flags[random.place(ticks)] = random.pick(&[6, 15, 16, 128]);
    }
    Call::Take {
        flags,
        values,
        lent,
    }
}
