//! Opening, taking and closing a sweep.
//! "Each call tries its numbers in the order listed; the first that holds is returned, and
//! without one the call is carried out." A refusal changes neither processor nor buffer.
//! Mode and azimuth are only checked: no rule reads them.

use crate::machine::{machine_of, Totals};
use crate::records::{record, Record, RECORD_BYTES};
use crate::refusals::Refusal;
use crate::samples::{is_bad, Tick, Trace};

/// "Limits: 4,096 ticks a piece, 32,768 a sweep".
pub const PIECE_TICKS: usize = 4_096;
pub const SWEEP_TICKS: usize = 32_768;

/// "Close. 3, then 7 for under 144 bytes."
pub const CLOSE_BYTES: usize = 144;

/// "the idle processor, one fixed value with no sweep open, which also stands before the first
/// opening", or a processor with a sweep open.
#[derive(Clone, Debug, PartialEq, Eq)]
pub enum Processor {
    Idle,
    Open(Sweep),
}

/// An open sweep: the joined trace, and how many ticks had been taken at the last handing out.
#[derive(Clone, Debug, PartialEq, Eq)]
pub struct Sweep {
    joined: Trace,
    handed_out_at: Tick,
}

/// What an accepted close returns beside the idle processor.
#[derive(Clone, Copy, Debug, PartialEq, Eq)]
pub struct Closed {
    pub written: usize,
    pub totals: Totals,
}

/// "7: reply buffer under 72 × ceil(n/206) bytes for n ticks."
pub fn take_bytes(ticks: usize) -> usize {
    72 * ticks.div_ceil(206)
}

/// "A reply with F1 at q .. is written by the first call after which at least q+385 ticks have
/// been taken".
pub fn due_at(q: Tick) -> Tick {
    q + 385
}

impl Processor {
    /// "Open. 1: mode not 1 to 3. 2: azimuth above 16,383. No processor comes back."
    pub fn open(mode: u8, azimuth: u16) -> Result<Processor, Refusal> {
        if !(1..=3).contains(&mode) {
            return Err(Refusal::Mode);
        }
        if azimuth > 16_383 {
            return Err(Refusal::Azimuth);
        }
        Ok(Processor::Open(Sweep {
            joined: Trace::default(),
            handed_out_at: 0,
        }))
    }

    /// Take a piece: join it, and write the replies that are due "in order of q, from the
    /// buffer's start; the rest stays. The count written is returned."
    pub fn take(
        &mut self,
        flags: &[u8],
        values: &[u8],
        buffer: &mut [u8],
    ) -> Result<usize, Refusal> {
        self.join(flags, values, buffer.len())?;
        let records = self.hand_out();
        write(buffer, &records);
        Ok(records.len())
    }

    /// "Take. 3: no sweep open. 4: flag and value slices differ in length. 5: piece over 4,096.
    /// 6: sweep would pass 32,768. 7: reply buffer under 72 × ceil(n/206) bytes for n ticks.
    /// 8: a bad flag byte. A piece of 0 ticks is taken." Hands nothing out.
    pub fn join(&mut self, flags: &[u8], values: &[u8], lent: usize) -> Result<(), Refusal> {
        let Processor::Open(sweep) = self else {
            return Err(Refusal::NoSweep);
        };
        if flags.len() != values.len() {
            return Err(Refusal::LengthsDiffer);
        }
        if flags.len() > PIECE_TICKS {
            return Err(Refusal::PieceTooLong);
        }
        if sweep.joined.flags().len() + flags.len() > SWEEP_TICKS {
            return Err(Refusal::SweepTooLong);
        }
        if lent < take_bytes(flags.len()) {
            return Err(Refusal::BufferTooShort);
        }
        if flags.iter().copied().any(is_bad) {
            return Err(Refusal::BadFlag);
        }
        sweep.joined.join(flags, values);
        Ok(())
    }

    /// The records that became due since the last handing out, in order of q. The rules are
    /// applied to the joined trace as known now. Without an open sweep there are none.
    pub fn hand_out(&mut self) -> Vec<Record> {
        let Processor::Open(sweep) = self else {
            return Vec::new();
        };
        let (before, now) = (sweep.handed_out_at, sweep.joined.ticks());
        sweep.handed_out_at = now;
        machine_of(&sweep.joined)
            .replies
            .iter()
            .filter(|reply| before < due_at(reply.q) && due_at(reply.q) <= now)
            .map(record)
            .collect()
    }

    /// "Close. 3, then 7 for under 144 bytes. Writes what is left, in order of q from the
    /// buffer's start; the rest stays. Returns the count written, the totals .., and the idle
    /// processor".
    pub fn close(&mut self, buffer: &mut [u8]) -> Result<Closed, Refusal> {
        let Processor::Open(sweep) = self else {
            return Err(Refusal::NoSweep);
        };
        if buffer.len() < CLOSE_BYTES {
            return Err(Refusal::BufferTooShort);
        }
        let machine = machine_of(&sweep.joined);
        let left = machine
            .replies
            .iter()
            .filter(|reply| due_at(reply.q) > sweep.handed_out_at);
        let records: Vec<Record> = left.map(record).collect();
        write(buffer, &records);
        *self = Processor::Idle;
        Ok(Closed {
            written: records.len(),
            totals: machine.totals,
        })
    }
}

/// Write the records from the buffer's start; the rest stays.
fn write(buffer: &mut [u8], records: &[Record]) {
    for (place, record) in records.iter().enumerate() {
        buffer[place * RECORD_BYTES..(place + 1) * RECORD_BYTES].copy_from_slice(record);
    }
}
