//! Lists of calls by seed and number. Every list leaves no sweep open.

use crate::form::{Placed, RECORDED};
use model::generate::calls::{calls, Call};
use model::generate::cuttings::{cutting, CUTTINGS};
use model::generate::random::Random;
use model::generate::{trace, Kind};
use model::machine::{machine_of, Machine};
use model::samples::Trace;
use model::sweep::{due_at, SWEEP_TICKS};

pub struct List {
    pub calls: Vec<Placed>,
    /// The machine on the trace that every sweep of the list takes whole, if there is one.
    pub whole: Option<Machine>,
}

/// The list of this number. One in four is the generator's list of direct calls; the others take
/// one trace in every kind of cutting, one after the other.
pub fn list(seed: u64, number: u64) -> List {
    let mut random = Random::new(seed.wrapping_mul(1_000_000_007).wrapping_add(number));
    let (calls, whole) = if number % 4 == 3 {
        (calls(&mut random), None)
    } else {
        let (trace, machine) = trace_and_machine(&mut random);
        (cuttings(&trace, &mut random), Some(machine))
    };
    let calls = calls.into_iter();
    List {
        calls: calls.map(|call| placed(call, &mut random)).collect(),
        whole,
    }
}

/// The trace in every kind of cutting, in a random order, at one mode and azimuth.
fn cuttings(trace: &Trace, random: &mut Random) -> Vec<Call> {
    let mode = random.byte(1..=3);
    let azimuth = random.within(0..=16_383) as u16;
    let first = random.place(CUTTINGS.len());
    let mut calls = Vec::new();
    for place in 0..CUTTINGS.len() {
        let how = CUTTINGS[(first + place) % CUTTINGS.len()];
        calls.extend(cutting(how, trace, mode, azimuth, random));
    }
    calls
}

fn trace_and_machine(random: &mut Random) -> (Trace, Machine) {
    let ticks = match random.within(1..=32) {
        1 => SWEEP_TICKS as i64,
        2 => random.within(10_000..=SWEEP_TICKS as i64),
        3..=8 => random.within(3_000..=10_000),
        9..=14 => random.within(0..=400),
        15..=18 => return closing(random),
        _ => random.within(400..=3_000),
    };
    let trace = trace(Kind::Mixed, ticks as usize, random);
    let machine = machine_of(&trace);
    (trace, machine)
}

/// A trace that leaves eight replies to the close, if one of many tries does.
fn closing(random: &mut Random) -> (Trace, Machine) {
    let mut tries = 0;
    loop {
        let trace = trace(Kind::Closing, random.within(384..=900) as usize, random);
        let machine = machine_of(&trace);
        let left = |ticks| machine.replies.iter().filter(move |r| due_at(r.q) > ticks);
        tries += 1;
        if tries == 300 || left(trace.ticks()).count() == 8 {
            return (trace, machine);
        }
    }
}

/// The call somewhere in the recordings, with bad flags around it.
fn placed(call: Call, random: &mut Random) -> Placed {
    let (flags, values) = match &call {
        Call::Take { flags, values, .. } => (flags.len(), values.len()),
        _ => (0, 0),
    };
    Placed {
        call,
        shown: true,
        around: random.pick(&[6, 15, 16, 32, 64, 128, 255]),
        fill: random.byte(0..=255),
        starts: (
            random.place(RECORDED - flags + 1),
            random.place(RECORDED - values + 1),
        ),
    }
}
