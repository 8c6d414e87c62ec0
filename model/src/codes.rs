//! Altitude from mode C, identity from modes A and 2, and the code of an altitude.
//! No Gray code is computed here. The altitudes are walked through from the lowest up, where each
//! step of 100 ft changes one pulse; both ways look up in the table that this gives.

use std::sync::LazyLock;

/// The pulses in a code word: "bits 0 to 12 are positions 1 to 13 (C1 A1 C2 A2 C4 A4 X B1 D1 B2 D2
/// B4 D4)".
pub const C1: u16 = 1 << 0;
pub const A1: u16 = 1 << 1;
pub const C2: u16 = 1 << 2;
pub const A2: u16 = 1 << 3;
pub const C4: u16 = 1 << 4;
pub const A4: u16 = 1 << 5;
pub const X: u16 = 1 << 6;
pub const B1: u16 = 1 << 7;
pub const D1: u16 = 1 << 8;
pub const B2: u16 = 1 << 9;
pub const D2: u16 = 1 << 10;
pub const B4: u16 = 1 << 11;
pub const D4: u16 = 1 << 12;

/// "D2 D4 A1 A2 A4 B1 B2 B4, highest first": here the lowest is first.
const GRAY_PULSES: [u16; 8] = [B4, B2, B1, A4, A2, A1, D4, D2];

/// "C1 C2 C4 as 001, 011, 010, 110, 100".
pub const C_GROUPS: [u16; 5] = [C4, C2 | C4, C2, C1 | C2, C1];

/// "these eleven bits": D1 is not among them.
pub const ALTITUDE_BITS: u16 = D2 | D4 | A1 | A2 | A4 | B1 | B2 | B4 | C1 | C2 | C4;

/// The "twelve bits" of an identity.
pub const IDENTITY_BITS: u16 = ALTITUDE_BITS | D1;

/// An altitude "below −1,000 ft" is none.
const LOWEST: i32 = -1_000;

/// "The answer is feet, or unsure .., or no altitude".
#[derive(Clone, Copy, Debug, PartialEq, Eq)]
pub enum Altitude {
    Feet(i32),
    Unsure,
    NoAltitude,
}

/// "four octal digits A, B, C, D", or unsure.
#[derive(Clone, Copy, Debug, PartialEq, Eq)]
pub enum Identity {
    Digits([u8; 4]),
    Unsure,
}

/// What a code says in its mode. In a mode that is not 1, 2 or 3 it is neither.
#[derive(Clone, Copy, Debug, PartialEq, Eq)]
pub enum Meaning {
    Altitude(Altitude),
    Identity(Identity),
    Neither,
}

/// An altitude and its code.
struct Step {
    feet: i32,
    code: u16,
}

/// Every step that has an altitude, by rising altitude; and the feet by the eleven bits.
struct Table {
    steps: Vec<Step>,
    feet: Vec<Option<i32>>,
}

static TABLE: LazyLock<Table> = LazyLock::new(|| {
    let steps = steps();
    let mut feet = vec![None; usize::from(ALTITUDE_BITS) + 1];
    for step in &steps {
        feet[usize::from(step.code)] = Some(step.feet);
    }
    Table { steps, feet }
});

/// "Gray code for n, counted in 500 ft": n has five steps of 100 ft each, and the next n changes one
/// pulse, that of its own lowest bit that is set. The walk starts at n = 0 and h = 1, where
/// "100 × (5n + h − 13) ft" is −1,200 ft.
fn steps() -> Vec<Step> {
    let mut steps = Vec::new();
    let (mut gray, mut feet) = (0, -1_200);
    for n in 0..=255_u32 {
        if n > 0 {
            gray ^= GRAY_PULSES[n.trailing_zeros() as usize];
        }
        for group in rising_groups(n) {
            let code = gray | group;
            steps.push(Step { feet, code });
            feet += 100;
        }
    }
    steps.retain(|step| step.feet >= LOWEST);
    steps
}

/// The C groups of one n by rising altitude. "for odd n, h becomes 6 − h": they are gone through
/// forth for even n, and back for odd n.
fn rising_groups(n: u32) -> [u16; 5] {
    let mut groups = C_GROUPS;
    if n % 2 == 1 {
        groups.reverse();
    }
    groups
}

/// "feet, or unsure if any of these eleven bits has confidence 0, or no altitude". "Unsure wins."
pub fn altitude(code: u16, confidence: u16) -> Altitude {
    if !is_sure(confidence, ALTITUDE_BITS) {
        return Altitude::Unsure;
    }
    match feet_of(code) {
        Some(feet) => Altitude::Feet(feet),
        None => Altitude::NoAltitude,
    }
}

/// "no altitude for another C group, for D1 set, or below −1,000 ft": the table has only the codes
/// of the others. Bits that are neither D1 nor among the eleven are not read.
fn feet_of(code: u16) -> Option<i32> {
    if code & D1 != 0 {
        return None;
    }
    TABLE.feet[usize::from(code & ALTITUDE_BITS)]
}

/// Whether each of these bits has confidence 1.
fn is_sure(confidence: u16, bits: u16) -> bool {
    confidence & bits == bits
}

/// "four octal digits A, B, C, D, .. unsure likewise over its twelve bits".
pub fn identity(code: u16, confidence: u16) -> Identity {
    if !is_sure(confidence, IDENTITY_BITS) {
        return Identity::Unsure;
    }
    let groups = [[A4, A2, A1], [B4, B2, B1], [C4, C2, C1], [D4, D2, D1]];
    Identity::Digits(groups.map(|group| digit(code, group)))
}

/// "each weighted 4, 2, 1": a pulse's weight is its index.
fn digit(code: u16, [four, two, one]: [u16; 3]) -> u8 {
    let bit = |pulse| u8::from(code & pulse != 0);
    4 * bit(four) + 2 * bit(two) + bit(one)
}

/// Altitude "from mode C", which is 3; "For modes A and 2 the identity", which are 1 and 2.
pub fn meaning(mode: u8, code: u16, confidence: u16) -> Meaning {
    match mode {
        1 | 2 => Meaning::Identity(identity(code, confidence)),
        3 => Meaning::Altitude(altitude(code, confidence)),
        _ => Meaning::Neither,
    }
}

/// "A writer from altitude to code, other bits 0"; a number that is no step "has no code".
pub fn code_of(feet: i32) -> Option<u16> {
    let steps = &TABLE.steps;
    let place = steps.binary_search_by_key(&feet, |step| step.feet).ok()?;
    Some(steps[place].code)
}
