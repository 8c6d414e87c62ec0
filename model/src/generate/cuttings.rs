//! Lists of calls that take one trace whole, each in a cutting of its own. Between the pieces stand
//! calls that are refused, whichever trace was taken so far.

use super::calls::{piece_ticks, Call};
use super::random::Random;
use crate::samples::{Trace, N, P};
use crate::sweep::{take_bytes, CLOSE_BYTES, PIECE_TICKS, SWEEP_TICKS};

/// How long the pieces are, and how often a call that is refused comes before the next.
#[derive(Clone, Copy, Debug, PartialEq, Eq)]
pub enum Cutting {
    /// 4,096 ticks, and at the end what is left.
    Whole,
    /// 0 to 4,096 ticks.
    Mixed,
    /// 1 to 16 ticks.
    Small,
    /// 1 to 3 ticks.
    Tiny,
    /// 0 to 4,096 ticks, with a refused call or more before most of them.
    Disturbed,
}

/// Lengths of pieces around those of blocks, rooms, kept values and the delay of a reply.
const TELLING: [usize; 18] = [
    63, 64, 65, 127, 128, 129, 205, 206, 207, 255, 256, 257, 384, 385, 386, 412, 413, 4_095,
];

pub const CUTTINGS: [Cutting; 5] = [
    Cutting::Whole,
    Cutting::Mixed,
    Cutting::Small,
    Cutting::Tiny,
    Cutting::Disturbed,
];

impl Cutting {
    /// The length of a piece.
    fn ticks(self, random: &mut Random) -> usize {
        match self {
            Cutting::Whole => PIECE_TICKS,
            Cutting::Small => random.within(1..=16) as usize,
            Cutting::Tiny => random.within(1..=3) as usize,
            Cutting::Mixed | Cutting::Disturbed if random.chance(1, 4) => random.pick(&TELLING),
            Cutting::Mixed | Cutting::Disturbed => piece_ticks(random),
        }
    }

    /// Whether a refused call comes next.
    fn is_disturbed(self, random: &mut Random) -> bool {
        match self {
            Cutting::Whole => false,
            Cutting::Mixed => random.chance(1, 8),
            Cutting::Small | Cutting::Tiny => random.chance(1, 64),
            Cutting::Disturbed => random.chance(2, 3),
        }
    }
}

/// Open, the pieces of the trace, close; refused calls among them, before and after. At times the
/// sweep is opened once more when some of the trace was taken.
pub fn cutting(
    how: Cutting,
    trace: &Trace,
    mode: u8,
    azimuth: u16,
    random: &mut Random,
) -> Vec<Call> {
    let ticks = trace.flags().len();
    let mut calls = Vec::new();
    while how.is_disturbed(random) {
        calls.push(without_sweep(random));
    }
    if how.is_disturbed(random) {
        calls.push(Call::Open { mode, azimuth });
        let some = random.place(ticks + 1);
        take_up_to(some, how, trace, random, &mut calls);
    }
    calls.push(Call::Open { mode, azimuth });
    take_up_to(ticks, how, trace, random, &mut calls);
    let lent = enough(CLOSE_BYTES, random);
    calls.push(Call::Close { lent });
    while how.is_disturbed(random) {
        calls.push(without_sweep(random));
    }
    calls
}

/// The takes of the first ticks of the trace, with refused calls among them.
fn take_up_to(
    ticks: usize,
    how: Cutting,
    trace: &Trace,
    random: &mut Random,
    calls: &mut Vec<Call>,
) {
    let mut taken = 0;
    loop {
        while how.is_disturbed(random) {
            calls.push(refused(taken, random));
        }
        if taken == ticks {
            return;
        }
        let end = (taken + how.ticks(random)).min(ticks);
        calls.push(Call::Take {
            flags: trace.flags()[taken..end].to_vec(),
            values: trace.values()[taken..end].to_vec(),
            lent: enough(take_bytes(end - taken), random),
        });
        taken = end;
    }
}

/// A call that is refused while no sweep is open.
fn without_sweep(random: &mut Random) -> Call {
    match random.within(1..=8) {
        1 => refused_opening(random),
        2..=3 => Call::Close {
            lent: random.place(2 * CLOSE_BYTES),
        },
        4 => Call::Take {
            flags: Vec::new(),
            values: Vec::new(),
            lent: 0,
        },
        _ => refused_take(SWEEP_TICKS - random.place(600), random),
    }
}

/// A call that is refused in a sweep of so many ticks.
fn refused(taken: usize, random: &mut Random) -> Call {
    match random.within(1..=8) {
        1 => refused_opening(random),
        2 => Call::Close {
            lent: too_few(CLOSE_BYTES, random),
        },
        _ => refused_take(taken, random),
    }
}

/// An opening with a wrong mode, a wrong azimuth, or both.
fn refused_opening(random: &mut Random) -> Call {
    let wrong = random.within(1..=3);
    let azimuth = random.within(0..=16_383) as u16;
    let beyond = random.pick(&[16_384, 16_385, 32_768, u16::MAX]);
    Call::Open {
        mode: if wrong == 1 {
            random.byte(1..=3)
        } else {
            random.pick(&[0, 4, 255])
        },
        azimuth: if wrong == 2 { azimuth } else { beyond },
    }
}

/// A take to which some of the numbers 4 to 8 apply: one chosen first, and each other at times.
fn refused_take(taken: usize, random: &mut Random) -> Call {
    let left = SWEEP_TICKS - taken;
    let first = if left < PIECE_TICKS {
        random.within(4..=8)
    } else {
        random.pick(&[4, 5, 7, 8])
    };
    let mut applies = |number: i64| number == first || random.chance(1, 4);
    let [four, five, six, seven, eight] = [4, 5, 6, 7, 8].map(&mut applies);
    let ticks = if five {
        PIECE_TICKS + 1 + edge_or(800, random)
    } else if six && left < PIECE_TICKS {
        left + 1 + edge_or(PIECE_TICKS - left, random)
    } else {
        1 + random.place(left.clamp(1, PIECE_TICKS))
    };
    let values = if four { other(ticks, random) } else { ticks };
    let needed = take_bytes(ticks);
    Call::Take {
        flags: flags(ticks, eight, random),
        values: (0..values).map(|_| random.byte(0..=255)).collect(),
        lent: if seven {
            too_few(needed, random)
        } else {
            enough(needed, random)
        },
    }
}

/// 0 half of the time, else something below this number.
fn edge_or(below: usize, random: &mut Random) -> usize {
    random.place(2) * random.place(below)
}

/// Another number of values than there are flags.
fn other(flags: usize, random: &mut Random) -> usize {
    match random.within(1..=4) {
        1 => flags + 1,
        2 => 0,
        _ => flags - 1,
    }
}

/// Random flags; if so wished, some of them bad.
fn flags(ticks: usize, bad: bool, random: &mut Random) -> Vec<u8> {
    let valid = |flag: u8| if flag & P != 0 { flag & !N } else { flag };
    let mut flags: Vec<u8> = (0..ticks).map(|_| valid(random.byte(0..=15))).collect();
    let how_many = if bad { random.within(1..=3) } else { 0 };
    for _ in 0..how_many {
        let anywhere = random.place(ticks);
        let place = random.pick(&[0, anywhere, ticks - 1]);
        flags[place] = random.pick(&[6, 7, 14, 15, 16, 32, 64, 128, 255]);
    }
    flags
}

/// A buffer that suffices: often with not a byte more.
fn enough(needed: usize, random: &mut Random) -> usize {
    let spare = random.pick(&[1, 30, 2_000 - needed]);
    needed + random.place(spare)
}

/// A buffer that does not suffice: often with just a byte less.
fn too_few(needed: usize, random: &mut Random) -> usize {
    if random.chance(1, 2) {
        needed - 1
    } else {
        random.place(needed)
    }
}
