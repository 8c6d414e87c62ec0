//! Altitude, identity and the writer: cases worked out by hand, what holds for every code, and the
//! table against the formula.

use model::codes::*;
use std::collections::HashSet;

/// Every bit has confidence 1.
const SURE: u16 = 0x7fff;

/// Bits that no rule reads: position 14 (F2), SPI, and the one that is zero.
const F2: u16 = 1 << 13;
const SPI: u16 = 1 << 14;
const ZERO: u16 = 1 << 15;

/// A code with no altitude for each reason: D1 set; below -1,000 ft; each other C group.
const NO_ALTITUDES: [u16; 6] = [D1 | C2, C4, C2 | C4, 0, C1 | C4, C1 | C2 | C4];

/// The altitudes that have a code.
fn altitudes() -> impl Iterator<Item = i32> {
    (-1_000..=126_700).step_by(100)
}

/// The code of an altitude that has one.
fn written(feet: i32) -> u16 {
    code_of(feet).expect("an altitude with a code")
}

/// The bits of a set, one at a time.
fn single(bits: u16) -> impl Iterator<Item = u16> {
    (0..16)
        .map(|bit| 1 << bit)
        .filter(move |bit| bits & bit != 0)
}

#[test]
fn altitudes_worked_out_by_hand() {
    for (feet, code) in [
        // n = 0 from h = 3, then n = 1, whose groups come the other way, then n = 2.
        (-1_000, 0x0004),
        (-900, 0x0005),
        (-800, 0x0001),
        (-700, B4 | C1),
        (-600, B4 | C1 | C2),
        (-500, B4 | C2),
        (-400, B4 | C2 | C4),
        (-300, B4 | C4),
        (-200, B2 | B4 | C4),
        (0, 0x0a04),
        // n = 22 is 10110, in Gray code 11101.
        (10_000, A2 | A4 | B1 | B4 | C2),
        // n = 72 is 1001000, in Gray code 1101100.
        (35_000, D4 | A1 | A4 | B1 | C2),
        // n = 127, in Gray code 1000000, and n = 128, 11000000.
        (62_700, D4 | C4),
        (62_800, D2 | D4 | C4),
        // n = 255, in Gray code 10000000.
        (126_600, D2 | C2 | C4),
        (126_700, 0x0410),
    ] {
        assert_eq!(altitude(code, SURE), Altitude::Feet(feet), "{code:04x}");
        assert_eq!(code_of(feet), Some(code), "{feet}");
    }
}

#[test]
fn other_numbers_have_no_code() {
    for feet in [-1_200, -1_100, -1_050, -1_001, -999, -1, 1, 50, 126_699] {
        assert_eq!(code_of(feet), None, "{feet}");
    }
    for feet in [126_701, 126_750, 126_800, i32::MIN, i32::MAX] {
        assert_eq!(code_of(feet), None, "{feet}");
    }
    let with_code = (-2_000..=130_000).filter(|&feet| code_of(feet).is_some());
    assert!(with_code.eq(altitudes()));
}

#[test]
fn no_altitude_below_1_000_feet_under_zero() {
    assert_eq!(altitude(0x0010, SURE), Altitude::NoAltitude);
    assert_eq!(altitude(0x0014, SURE), Altitude::NoAltitude);
    assert_eq!(altitude(0x0004, SURE), Altitude::Feet(-1_000));
}

#[test]
fn no_altitude_for_another_c_group_at_any_n() {
    let other_pulses = ALTITUDE_BITS & !(C1 | C2 | C4);
    for pulses in (0..=SURE).filter(|pulses| pulses & !other_pulses == 0) {
        for group in [0, C1 | C4, C1 | C2 | C4] {
            assert_eq!(altitude(pulses | group, SURE), Altitude::NoAltitude);
        }
    }
}

#[test]
fn no_altitude_for_d1_set() {
    for feet in altitudes() {
        let code = written(feet) | D1;
        assert_eq!(altitude(code, SURE), Altitude::NoAltitude, "{code:04x}");
    }
}

#[test]
fn unsure_wins_over_each_no_altitude() {
    assert_eq!(altitude(0x0104, 0x7ffe), Altitude::Unsure);
    assert_eq!(altitude(0x0104, 0x7eff), Altitude::NoAltitude);
    for code in NO_ALTITUDES {
        assert_eq!(altitude(code, SURE), Altitude::NoAltitude);
        for bit in single(ALTITUDE_BITS) {
            assert_eq!(altitude(code, SURE & !bit), Altitude::Unsure);
        }
    }
}

#[test]
fn an_altitude_is_unsure_by_each_of_its_eleven_bits_alone() {
    assert_eq!(ALTITUDE_BITS.count_ones(), 11);
    for feet in altitudes() {
        let code = written(feet);
        for bit in single(0xffff) {
            let is_unsure = altitude(code, !bit) == Altitude::Unsure;
            assert_eq!(is_unsure, ALTITUDE_BITS & bit != 0, "{code:04x}, {bit:04x}");
        }
    }
    assert_eq!(altitude(0x0004, ALTITUDE_BITS), Altitude::Feet(-1_000));
    assert_eq!(altitude(0x0004, 0), Altitude::Unsure);
}

#[test]
fn an_altitude_does_not_depend_on_x_f2_spi_and_the_last_bit() {
    for feet in altitudes() {
        for other in [X, F2, SPI, ZERO, X | F2 | SPI | ZERO] {
            let code = written(feet) | other;
            assert_eq!(altitude(code, SURE), Altitude::Feet(feet));
            assert_eq!(altitude(code, SURE & !other), Altitude::Feet(feet));
        }
        assert_eq!(altitude(written(feet), SURE & !D1), Altitude::Feet(feet));
    }
}

#[test]
fn a_digit_of_the_identity_by_each_pulse() {
    for (pulse, digits) in [
        (A4, [4, 0, 0, 0]),
        (A2, [2, 0, 0, 0]),
        (A1, [1, 0, 0, 0]),
        (B4, [0, 4, 0, 0]),
        (B2, [0, 2, 0, 0]),
        (B1, [0, 1, 0, 0]),
        (C4, [0, 0, 4, 0]),
        (C2, [0, 0, 2, 0]),
        (C1, [0, 0, 1, 0]),
        (D4, [0, 0, 0, 4]),
        (D2, [0, 0, 0, 2]),
        (D1, [0, 0, 0, 1]),
        (X | F2 | SPI | ZERO, [0; 4]),
        (0, [0; 4]),
        (0xffff, [7; 4]),
        (0x1fbf, [7; 4]),
        // 7600 by its bits: A4 A2 A1 B4 B2.
        (0x0a2a, [7, 6, 0, 0]),
        // 1234 by its bits: A1, B2, C2 C1, D4.
        (0x1207, [1, 2, 3, 4]),
    ] {
        assert_eq!(identity(pulse, SURE), Identity::Digits(digits));
    }
}

#[test]
fn an_identity_is_unsure_by_each_of_its_twelve_bits_alone() {
    assert_eq!(IDENTITY_BITS, 0x1fbf);
    for code in [0x0000, 0x1fbf, 0x0a2a, 0x1207, 0xffff] {
        for bit in single(0xffff) {
            let is_unsure = identity(code, !bit) == Identity::Unsure;
            assert_eq!(is_unsure, IDENTITY_BITS & bit != 0, "{code:04x}, {bit:04x}");
        }
        assert_eq!(identity(code, 0), Identity::Unsure);
        assert_eq!(identity(code, IDENTITY_BITS), identity(code, SURE));
    }
}

#[test]
fn every_identity_comes_from_one_setting_of_the_twelve_bits() {
    let codes = (0..=SURE).filter(|code| code & !IDENTITY_BITS == 0);
    let digits: HashSet<[u8; 4]> = codes
        .map(|code| match identity(code, SURE) {
            Identity::Digits(digits) => digits,
            Identity::Unsure => panic!("{code:04x} is sure"),
        })
        .collect();
    assert_eq!(digits.len(), 4_096);
    assert!(digits.iter().flatten().all(|&digit| digit <= 7));
}

#[test]
fn the_mode_says_what_a_code_means() {
    for (code, confidence) in [(0x0a04, SURE), (0x0104, SURE), (0x0a04, 0x7ffe)] {
        for mode in 0..=255 {
            let expected = match mode {
                1 | 2 => Meaning::Identity(identity(code, confidence)),
                3 => Meaning::Altitude(altitude(code, confidence)),
                _ => Meaning::Neither,
            };
            assert_eq!(meaning(mode, code, confidence), expected, "mode {mode}");
        }
    }
    let squawk = Meaning::Identity(Identity::Digits([0, 6, 2, 0]));
    assert_eq!(meaning(1, 0x0a04, SURE), squawk);
    assert_eq!(meaning(2, 0x0a04, SURE), squawk);
    let sea_level = Meaning::Altitude(Altitude::Feet(0));
    assert_eq!(meaning(3, 0x0a04, SURE), sea_level);
    assert_eq!(meaning(0, 0x0a04, SURE), Meaning::Neither);
    assert_eq!(meaning(255, 0x0a04, 0), Meaning::Neither);
}

#[test]
fn every_code_is_distinct_and_neighbours_differ_in_one_bit() {
    let codes: Vec<u16> = altitudes().map(written).collect();
    assert_eq!(codes.len(), 1_278);
    assert_eq!(codes.iter().collect::<HashSet<_>>().len(), 1_278);
    assert!(codes.iter().all(|code| code & !ALTITUDE_BITS == 0));
    let neighbours = codes.windows(2);
    assert!(neighbours
        .map(|pair| pair[0] ^ pair[1])
        .all(u16::is_power_of_two));
}

#[test]
fn both_ways_come_back() {
    for feet in altitudes() {
        assert_eq!(altitude(written(feet), SURE), Altitude::Feet(feet));
    }
    for code in 0..=0xffff {
        if let Altitude::Feet(feet) = altitude(code, SURE) {
            assert_eq!(written(feet), code & ALTITUDE_BITS);
        }
    }
}

#[test]
fn counts_over_every_code_and_every_confidence() {
    // X, F2, SPI and the last bit are free, and D1 is not set.
    let with_feet = (0..=0xffff).filter(|&code| matches!(altitude(code, SURE), Altitude::Feet(_)));
    assert_eq!(with_feet.count(), 1_278 * 16);
    // D1 set; three C groups at 256 n; the two codes below -1,000 ft.
    let without = (0..=0xffff).filter(|&code| altitude(code, SURE) == Altitude::NoAltitude);
    assert_eq!(without.count(), 32_768 + 3 * 256 * 16 + 2 * 16);
    // Five bits do not make an altitude unsure, and four do not make an identity unsure.
    let sure = (0..=0xffff).filter(|&confidence| altitude(0, confidence) != Altitude::Unsure);
    assert_eq!(sure.count(), 32);
    let sure = (0..=0xffff).filter(|&confidence| identity(0, confidence) != Identity::Unsure);
    assert_eq!(sure.count(), 16);
}

/// The altitude of a code by the formula: Gray code by exclusive or, then "100 × (5n + h − 13)".
fn by_formula(code: u16) -> Option<i32> {
    let highest_first = [D2, D4, A1, A2, A4, B1, B2, B4];
    let mut n = 0;
    for pulse in highest_first {
        let bit = i32::from(code & pulse != 0);
        n = 2 * n + (bit ^ (n & 1));
    }
    let c_group = [C1, C2, C4].map(|pulse| u8::from(code & pulse != 0));
    let h = match c_group {
        [0, 0, 1] => 1,
        [0, 1, 1] => 2,
        [0, 1, 0] => 3,
        [1, 1, 0] => 4,
        [1, 0, 0] => 5,
        _ => return None,
    };
    let h = if n % 2 == 1 { 6 - h } else { h };
    let feet = 100 * (5 * n + h - 13);
    (code & D1 == 0 && feet >= -1_000).then_some(feet)
}

#[test]
fn the_table_agrees_with_the_formula() {
    for code in 0..=0xffff {
        let expected = by_formula(code).map_or(Altitude::NoAltitude, Altitude::Feet);
        assert_eq!(altitude(code, SURE), expected, "{code:04x}");
    }
}
