//! Frames, one a line: reading the lines that come in, writing the lines that go out.

use crate::machine::Totals;
use crate::records::Record;
use crate::refusals::Refusal;

/// "over 258 digits" is refused.
pub const LINE_DIGITS: usize = 258;

/// "`02` with 1 to 64 flag, value pairs".
pub const LINE_SAMPLES: usize = 64;

/// "In: `01` mode (1 byte) azimuth (2); `02` with 1 to 64 flag, value pairs; `03` close."
#[derive(Clone, Debug, PartialEq, Eq)]
pub enum Frame {
    Open { mode: u8, azimuth: u16 },
    Take { flags: Vec<u8>, values: Vec<u8> },
    Close,
}

/// The lines of an input, each "ended by byte 10", which stays on it. Only the last can lack it.
pub fn lines(input: &[u8]) -> impl Iterator<Item = &[u8]> {
    input.split_inclusive(|&byte| byte == b'\n')
}

/// The frame of a line. 9 is tried before 10.
pub fn read(line: &[u8]) -> Result<Frame, Refusal> {
    let bytes = bytes_of(line).ok_or(Refusal::BadLine)?;
    frame_of(&bytes).ok_or(Refusal::BadFrame)
}

/// "9: empty, over 258 digits, odd, another character, or no final newline."
fn bytes_of(line: &[u8]) -> Option<Vec<u8>> {
    let digits = line.strip_suffix(b"\n")?;
    if digits.is_empty() || digits.len() > LINE_DIGITS || digits.len() % 2 == 1 {
        return None;
    }
    digits
        .chunks(2)
        .map(|pair| Some(16 * digit(pair[0])? + digit(pair[1])?))
        .collect()
}

/// "Lower-case hexadecimal".
fn digit(character: u8) -> Option<u8> {
    match character {
        b'0'..=b'9' => Some(character - b'0'),
        b'a'..=b'f' => Some(character - b'a' + 10),
        _ => None,
    }
}

/// "10: unknown kind, or wrong length for it."
fn frame_of(bytes: &[u8]) -> Option<Frame> {
    match bytes {
        &[0x01, mode, high, low] => Some(Frame::Open {
            mode,
            azimuth: u16::from_be_bytes([high, low]),
        }),
        [0x02, pairs @ ..] => take_of(pairs),
        [0x03] => Some(Frame::Close),
        _ => None,
    }
}

/// "1 to 64 flag, value pairs".
fn take_of(pairs: &[u8]) -> Option<Frame> {
    if pairs.len() % 2 == 1 || !(1..=LINE_SAMPLES).contains(&(pairs.len() / 2)) {
        return None;
    }
    Some(Frame::Take {
        flags: pairs.iter().step_by(2).copied().collect(),
        values: pairs.iter().skip(1).step_by(2).copied().collect(),
    })
}

/// "Out: `11` and a record".
pub fn reply_line(record: &Record) -> String {
    format!("11{}\n", hexadecimal(record))
}

/// "`12` and six totals of 2 bytes".
pub fn totals_line(totals: &Totals) -> String {
    let bytes: Vec<u8> = totals
        .in_order()
        .into_iter()
        .flat_map(u16::to_be_bytes)
        .collect();
    format!("12{}\n", hexadecimal(&bytes))
}

/// "`1f` and a refusal number (1)."
pub fn refusal_line(refusal: Refusal) -> String {
    format!("1f{}\n", hexadecimal(&[refusal.number()]))
}

/// "Lower-case hexadecimal".
pub fn hexadecimal(bytes: &[u8]) -> String {
    const DIGITS: &[u8; 16] = b"0123456789abcdef";
    let mut digits = String::with_capacity(2 * bytes.len());
    for byte in bytes {
        digits.push(char::from(DIGITS[usize::from(byte >> 4)]));
        digits.push(char::from(DIGITS[usize::from(byte & 15)]));
    }
    digits
}
