//! The refusal numbers.

/// A refusal; its number is document 01's.
#[derive(Clone, Copy, Debug, PartialEq, Eq)]
pub enum Refusal {
    /// "1: mode not 1 to 3."
    Mode = 1,
    /// "2: azimuth above 16,383."
    Azimuth = 2,
    /// "3: no sweep open."
    NoSweep = 3,
    /// "4: flag and value slices differ in length."
    LengthsDiffer = 4,
    /// "5: piece over 4,096."
    PieceTooLong = 5,
    /// "6: sweep would pass 32,768."
    SweepTooLong = 6,
    /// "7: reply buffer under 72 × ceil(n/206) bytes for n ticks", and at close "7 for under 144
    /// bytes".
    BufferTooShort = 7,
    /// "8: a bad flag byte."
    BadFlag = 8,
    /// "9: empty, over 258 digits, odd, another character, or no final newline."
    BadLine = 9,
    /// "10: unknown kind, or wrong length for it."
    BadFrame = 10,
}

impl Refusal {
    /// The number that is returned or printed.
    pub fn number(self) -> u8 {
        self as u8
    }
}
