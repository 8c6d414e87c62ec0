//! What holds of the rules on every generated trace, and of the generator itself.

use model::brackets::brackets;
use model::edges::{edges, marks};
use model::generate::calls::calls;
use model::generate::damage::damaged;
use model::generate::input::input;
use model::generate::random::Random;
use model::generate::recording::{recording, SCENES};
use model::generate::{length, short_length, trace, Kind, KINDS};
use model::machine::{machine_on, OPEN_REPLIES};
use model::samples::is_bad;
use model::statistics::statistics;
use model::survey::survey;
use model::sweep::SWEEP_TICKS;

#[test]
fn totals_add_up_to_the_brackets_on_thousands_of_sweeps() {
    let mut random = Random::new(51);
    for _ in 0..4_000 {
        let ticks = length(&mut random);
        let edges = edges(&trace(Kind::Mixed, ticks, &mut random));
        let machine = machine_on(&edges);
        let [found, outcomes @ ..] = machine.totals.in_order();
        assert_eq!(usize::from(found), brackets(&edges).len());
        assert_eq!(found, outcomes.iter().sum());
        assert_eq!(usize::from(outcomes[0]), machine.replies.len());
        for replies in machine.replies.windows(OPEN_REPLIES + 1) {
            assert!(replies[OPEN_REPLIES].q - replies[0].q > 205);
        }
    }
}

#[test]
fn edges_are_at_least_2_apart_and_no_tick_is_both_lead_and_trail() {
    let mut random = Random::new(52);
    for _ in 0..4_000 {
        let ticks = short_length(&mut random);
        let trace = trace(Kind::Mixed, ticks, &mut random);
        assert!(!marks(&trace).iter().any(|mark| mark.lead && mark.trail));
        for pair in edges(&trace).windows(2) {
            assert!(pair[1].tick - pair[0].tick >= 2);
        }
    }
}

#[test]
fn every_kind_gives_valid_flags_and_the_length_asked_for() {
    let mut random = Random::new(53);
    for (_, kind) in KINDS {
        for ticks in [0, 1, 2, 167, 385, 1_000, SWEEP_TICKS] {
            let trace = trace(kind, ticks, &mut random);
            assert_eq!(trace.flags().len(), ticks);
            assert!(!trace.flags().iter().copied().any(is_bad));
        }
    }
}

#[test]
fn every_valid_flag_byte_is_generated() {
    let trace = trace(Kind::Bytes, 20_000, &mut Random::new(54));
    for flag in (0..=255).filter(|&flag| !is_bad(flag)) {
        assert!(trace.flags().contains(&flag), "no flag byte {flag}");
    }
}

#[test]
fn the_same_seed_gives_the_same_and_another_gives_another() {
    let made = |seed: u64| {
        let mut random = Random::new(seed);
        let whole = input(Kind::Mixed, 5, length, &mut random);
        let damaged = damaged(&whole, &mut random);
        (whole, damaged, format!("{:?}", calls(&mut random)))
    };
    assert_eq!(made(55), made(55));
    assert_ne!(made(55).0, made(56).0);
}

#[test]
fn every_outcome_and_every_flag_occurs() {
    let statistics = statistics(1, 3_000);
    for (name, count) in statistics.counts() {
        println!("{name}: {count}");
    }
    for (name, count) in statistics.counts() {
        assert!(*count > 0, "{name} never occurs");
    }
    assert!(statistics.counts().len() > 45);
}

/// The totals of all sweeps of a recording, added up.
fn recorded_totals(name: &str, seed: u64) -> [u64; 6] {
    let (_, scene) = SCENES
        .into_iter()
        .find(|(other, _)| *other == name)
        .expect("a scene");
    let printed = survey(&recording(&scene, &mut Random::new(seed)));
    let totals: Vec<&str> = printed
        .lines()
        .filter(|line| line.starts_with("12"))
        .collect();
    assert_eq!(totals.len() as i64, scene.sweeps, "every sweep is closed");
    assert!(!printed.contains("\n1f"), "nothing is refused");
    std::array::from_fn(|place| {
        let digits = 2 + 4 * place..6 + 4 * place;
        let values = totals.iter().map(|line| &line[digits.clone()]);
        values
            .map(|value| u64::from_str_radix(value, 16).expect("digits"))
            .sum()
    })
}

#[test]
fn recordings_show_what_their_scene_says() {
    for seed in 1..=5 {
        let [_, replies, _, _, lost, _] = recorded_totals("quiet", seed);
        assert!((1..=15).contains(&replies) && lost == 0);
        let [_, replies, _, garbled, _, _] = recorded_totals("terminal", seed);
        assert!((24..=120).contains(&replies) && garbled > 0);
        let [_, replies, _, _, lost, _] = recorded_totals("busy", seed);
        assert!(replies > 300 && lost > 20);
    }
}
