//! The reply record of 18 bytes.

use crate::replies::{Reply, Settling};

/// "18 bytes, high byte first".
pub const RECORD_BYTES: usize = 18;

pub type Record = [u8; RECORD_BYTES];

/// "range (2), code (2), confidence (2), flags (1), N (1), S (2), reference as binary64 bits
/// (8)"
pub fn record(reply: &Reply) -> Record {
    let mut record = [0; RECORD_BYTES];
    record[0..2].copy_from_slice(&range(reply).to_be_bytes());
    record[2..4].copy_from_slice(&bits(reply, Settling::code).to_be_bytes());
    record[4..6].copy_from_slice(&bits(reply, Settling::confidence).to_be_bytes());
    record[6] = flags(reply);
    record[7] = reply.n;
    record[8..10].copy_from_slice(&reply.s.to_be_bytes());
    record[10..18].copy_from_slice(&reply.reference.to_bits().to_be_bytes());
    record
}

/// "Range counts are 60.4 ns; a range is twice a tick number."
fn range(reply: &Reply) -> u16 {
    u16::try_from(2 * reply.q).expect("a sweep has at most 32,768 ticks")
}

/// "Code and confidence: bits 0 to 12 are positions 1 to 13 (C1 A1 C2 A2 C4 A4 X B1 D1 B2 D2 B4
/// D4), bit 13 position 14, bit 14 SPI (17), bit 15 zero."
fn bits(reply: &Reply, bit_of: fn(Settling) -> bool) -> u16 {
    let position_of_bit = |bit: usize| if bit == 14 { 17 } else { bit + 1 };
    (0..=14)
        .filter(|&bit| bit_of(reply.settled[position_of_bit(bit)]))
        .map(|bit| 1 << bit)
        .sum()
}

/// "Flags: bit 0 N of 2 or more; 1 reference is F2; 2 reference pulse lacks M; 3 military;
/// others zero."
fn flags(reply: &Reply) -> u8 {
    u8::from(reply.n >= 2)
        | u8::from(reply.reference_is_f2) << 1
        | u8::from(reply.reference_lacks_m) << 2
        | u8::from(reply.military) << 3
}
