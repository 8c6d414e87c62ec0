//! Damage to an input: single bytes, whole lines, and frames that the rules refuse.

use super::random::Random;
use crate::frames::{hexadecimal, lines, LINE_DIGITS, LINE_SAMPLES};
use crate::samples::is_bad;
use crate::sweep::SWEEP_TICKS;

/// One way to damage an input.
#[derive(Clone, Copy, Debug, PartialEq, Eq)]
pub enum Damage {
    ByteChanged,
    ByteDropped,
    ByteInserted,
    Cut,
    Mode,
    Azimuth,
    BadFlag,
    UpperCase,
    LongLine,
    OddLine,
    EmptyLine,
    UnknownKind,
    WrongLength,
    NotOpen,
    TooManyTicks,
}

/// Every way to damage an input.
pub const DAMAGES: [Damage; 15] = [
    Damage::ByteChanged,
    Damage::ByteDropped,
    Damage::ByteInserted,
    Damage::Cut,
    Damage::Mode,
    Damage::Azimuth,
    Damage::BadFlag,
    Damage::UpperCase,
    Damage::LongLine,
    Damage::OddLine,
    Damage::EmptyLine,
    Damage::UnknownKind,
    Damage::WrongLength,
    Damage::NotOpen,
    Damage::TooManyTicks,
];

/// The input with one to three damages.
pub fn damaged(input: &[u8], random: &mut Random) -> Vec<u8> {
    let mut damaged = input.to_vec();
    for _ in 0..random.pick(&[1, 1, 2, 3]) {
        let damage = random.pick(&DAMAGES);
        damaged = damaged_by(damage, &damaged, random);
    }
    damaged
}

/// The input with this damage at a random place. An empty input stays empty.
pub fn damaged_by(damage: Damage, input: &[u8], random: &mut Random) -> Vec<u8> {
    if input.is_empty() {
        return Vec::new();
    }
    match damage {
        Damage::ByteChanged | Damage::ByteDropped | Damage::ByteInserted | Damage::Cut => {
            damage_byte(damage, input, random)
        }
        _ => damage_line(damage, input, random),
    }
}

fn damage_byte(damage: Damage, input: &[u8], random: &mut Random) -> Vec<u8> {
    let mut bytes = input.to_vec();
    let place = random.place(bytes.len());
    let byte = if random.chance(1, 2) {
        random.byte(0..=255)
    } else {
        random.pick(b"0123456789abcdef\n")
    };
    match damage {
        Damage::ByteDropped => {
            bytes.remove(place);
        }
        Damage::ByteInserted => bytes.insert(place, byte),
        Damage::Cut => bytes.truncate(place),
        _ => bytes[place] = byte,
    }
    bytes
}

/// Replace one line by its damaged form. Damage that needs a kind of line takes one of that
/// kind, if the input has it.
fn damage_line(damage: Damage, input: &[u8], random: &mut Random) -> Vec<u8> {
    let mut lines: Vec<Vec<u8>> = lines(input).map(<[u8]>::to_vec).collect();
    let start: &[u8] = match damage {
        Damage::Mode | Damage::Azimuth | Damage::TooManyTicks => b"01",
        Damage::BadFlag => b"02",
        Damage::NotOpen => b"03",
        _ => b"",
    };
    let places: Vec<usize> = (0..lines.len())
        .filter(|&place| lines[place].starts_with(start))
        .collect();
    if !places.is_empty() {
        let place = random.pick(&places);
        lines[place] = damaged_line(damage, &lines[place], random);
    }
    lines.concat()
}

fn damaged_line(damage: Damage, line: &[u8], random: &mut Random) -> Vec<u8> {
    let digits = line.strip_suffix(b"\n").unwrap_or(line);
    match damage {
        Damage::Mode => bad_mode(random),
        Damage::Azimuth => bad_azimuth(random),
        Damage::BadFlag => bad_flag(digits, random),
        Damage::UpperCase => [digits.to_ascii_uppercase().as_slice(), b"\n"].concat(),
        Damage::LongLine => long_line(digits, random),
        Damage::OddLine => [digits, b"0\n"].concat(),
        Damage::EmptyLine => [b"\n", line].concat(),
        Damage::UnknownKind => unknown_kind(digits, random),
        Damage::WrongLength => wrong_length(random),
        Damage::NotOpen => [line, random.pick(&[b"03\n".as_slice(), b"020950\n"])].concat(),
        _ => too_many_ticks(line),
    }
}

/// An opening with a mode out of range; the azimuth may be out of range too.
fn bad_mode(random: &mut Random) -> Vec<u8> {
    let above = random.byte(4..=255);
    let mode = random.pick(&[0, 4, above]);
    let azimuth = random.within(0..=65_535);
    format!("01{mode:02x}{azimuth:04x}\n").into_bytes()
}

/// An opening with an azimuth out of range.
fn bad_azimuth(random: &mut Random) -> Vec<u8> {
    let mode = random.within(1..=3);
    let above = random.within(16_384..=65_535);
    let azimuth = random.pick(&[16_384, 65_535, above]);
    format!("01{mode:02x}{azimuth:04x}\n").into_bytes()
}

/// A take with one bad flag byte.
fn bad_flag(digits: &[u8], random: &mut Random) -> Vec<u8> {
    let samples = digits.len().saturating_sub(2) / 4;
    if samples == 0 {
        return [digits, b"\n"].concat();
    }
    let bad: Vec<u8> = (0..=255).filter(|&flag| is_bad(flag)).collect();
    let flag = hexadecimal(&[random.pick(&bad)]);
    let place = 2 + 4 * random.place(samples);
    let mut line = digits.to_vec();
    line[place..place + 2].copy_from_slice(flag.as_bytes());
    line.push(b'\n');
    line
}

/// A line of at least 260 digits.
fn long_line(digits: &[u8], random: &mut Random) -> Vec<u8> {
    let mut line = digits.to_vec();
    while line.len() <= LINE_DIGITS || random.chance(1, 2) {
        line.extend_from_slice(b"00");
    }
    line.push(b'\n');
    line
}

/// A line of a kind that does not exist.
fn unknown_kind(digits: &[u8], random: &mut Random) -> Vec<u8> {
    let kind = random.pick(&[0x00, 0x04, 0x11, 0x12, 0x1f, 0xff]);
    let rest = digits.get(2..).unwrap_or_default();
    [hexadecimal(&[kind]).as_bytes(), rest, b"\n"].concat()
}

/// A known kind with a length that is wrong for it.
fn wrong_length(random: &mut Random) -> Vec<u8> {
    let lines: [&[u8]; 8] = [
        b"01\n",
        b"010100\n",
        b"0101000000\n",
        b"02\n",
        b"0209\n",
        b"02095009\n",
        b"0300\n",
        b"030000\n",
    ];
    random.pick(&lines).to_vec()
}

/// An opening followed by one tick more than a sweep may have.
fn too_many_ticks(line: &[u8]) -> Vec<u8> {
    let full = format!("02{}\n", "0000".repeat(LINE_SAMPLES));
    let fill = full.repeat(SWEEP_TICKS / LINE_SAMPLES);
    [line, fill.as_bytes(), b"020950\n"].concat()
}
