//! The two binary forms of the program crates/test_calls: a call, and its outcome. They are laid
//! down at the top of its source. Numbers have their high byte first.

use model::generate::calls::{Answer, Call};
use model::refusals::Refusal;
use std::ops::Range;

/// Samples in each of the program's two recordings.
pub const RECORDED: usize = 8_192;

/// Bytes of an outcome before the lent buffer.
pub const TOLD: usize = 968;

const PROCESSOR: Range<usize> = 64..TOLD;
const RECENT: Range<usize> = 248..504;

/// A call, and what the program does around it.
#[derive(Clone, Debug)]
pub struct Placed {
    pub call: Call,
    /// Whether the outcome shows the processor.
    pub shown: bool,
    /// The byte on both sides of a piece.
    pub around: u8,
    /// The byte that fills the lent buffer before the call.
    pub fill: u8,
    /// Where the flags and the values of a take start.
    pub starts: (usize, usize),
}

/// The bytes that end the input.
pub fn end() -> Vec<u8> {
    vec![0; 17]
}

impl Placed {
    /// The call as the program reads it.
    pub fn bytes(&self) -> Vec<u8> {
        let none: &[u8] = &[];
        let (kind, mode, azimuth, flags, values) = match &self.call {
            Call::Open { mode, azimuth } => (1, *mode, *azimuth, none, none),
            Call::Take { flags, values, .. } => (2, 0, 0, &flags[..], &values[..]),
            Call::Close { .. } => (3, 0, 0, none, none),
        };
        let mut bytes = vec![kind, u8::from(self.shown), mode, self.around, self.fill];
        bytes.extend(azimuth.to_be_bytes());
        for number in [
            self.starts.0,
            flags.len(),
            self.starts.1,
            values.len(),
            self.call.lent(),
        ] {
            let number = u16::try_from(number).expect("a number of two bytes");
            bytes.extend(number.to_be_bytes());
        }
        bytes.extend_from_slice(flags);
        bytes.extend_from_slice(values);
        bytes
    }
}

/// What a call is answered with: accepted or refused, the count or the number, and six totals.
pub type Told = [u64; 8];

/// The answer that the model gives, as the program tells it.
pub fn told(result: &Result<Answer, Refusal>) -> Told {
    match result {
        Ok(Answer::Opened) => [1, 0, 0, 0, 0, 0, 0, 0],
        Ok(Answer::Taken { written }) => [1, *written as u64, 0, 0, 0, 0, 0, 0],
        Ok(Answer::Closed { written, totals }) => {
            let [a, b, c, d, e, f] = totals.in_order().map(u64::from);
            [1, *written as u64, a, b, c, d, e, f]
        }
        Err(refusal) => [2, u64::from(refusal.number()), 0, 0, 0, 0, 0, 0],
    }
}

/// An outcome as the program wrote it.
pub struct Outcome(pub Vec<u8>);

impl Outcome {
    /// An outcome from its parts.
    pub fn of(told: &Told, processor: &[u8], buffer: &[u8]) -> Outcome {
        let numbers = told.iter().flat_map(|number| number.to_be_bytes());
        Outcome(numbers.chain([processor, buffer].concat()).collect())
    }

    fn number(&self, place: usize) -> u64 {
        let bytes = self.0[place..place + 8].try_into().expect("eight bytes");
        u64::from_be_bytes(bytes)
    }

    pub fn told(&self) -> Told {
        std::array::from_fn(|place| self.number(8 * place))
    }

    /// Mode, azimuth and the ticks taken.
    pub fn settings(&self) -> [u64; 3] {
        std::array::from_fn(|place| self.number(PROCESSOR.start + 8 * place))
    }

    /// The values of the last 256 ticks.
    pub fn recent(&self) -> &[u8] {
        &self.0[RECENT]
    }

    /// Every field of the processor.
    pub fn processor(&self) -> &[u8] {
        &self.0[PROCESSOR]
    }

    pub fn buffer(&self) -> &[u8] {
        &self.0[TOLD..]
    }
}

/// The bytes of a processor with no tick taken: mode and azimuth, or zeros where no sweep is open.
pub fn fresh_processor(mode: u8, azimuth: u16) -> Vec<u8> {
    let mut bytes = vec![0; PROCESSOR.len()];
    bytes[7] = mode;
    bytes[14..16].copy_from_slice(&azimuth.to_be_bytes());
    bytes
}

/// The name of the field at a place of a processor's bytes.
pub fn field_at(place: usize) -> String {
    let number = |start: usize| (place - start) / 8;
    match place + PROCESSOR.start {
        64..=71 => "mode".to_string(),
        72..=79 => "azimuth".to_string(),
        80..=87 => "taken".to_string(),
        88..=247 => format!("word {} of the front", number(24)),
        248..=503 => format!("recent value {}", place - 184),
        504..=919 => format!("place {}, number {}", (place - 440) / 104, number(440) % 13),
        _ => format!("count {}", number(856)),
    }
}
