//! Document 01's examples A to M, each half of them, and the printed survey.

mod drawing;

use drawing::{edge_ticks, Drawing};
use model::machine::{machine_of, Machine};
use model::records::record;
use model::samples::Trace;
use model::survey::survey;

/// A trace of 40 ticks to draw on.
fn blank() -> Drawing {
    Drawing::new(40, 80)
}

/// The machine on pulses that give exactly these edges.
fn machine_of_pulses(starts: &[usize]) -> Machine {
    let trace = Drawing::new(400, 80).pulses(starts).trace();
    let ticks: Vec<i64> = starts.iter().map(|&start| start as i64).collect();
    assert_eq!(edge_ticks(&trace), ticks);
    machine_of(&trace)
}

#[test]
fn a_empty_trace() {
    assert_eq!(edge_ticks(&Trace::default()), []);
    assert_eq!(machine_of(&Trace::default()), Machine::default());
}

#[test]
fn b_one_tick() {
    assert_eq!(edge_ticks(&blank().a(10..=10).trace()), []);
}

#[test]
fn c_two_ticks() {
    assert_eq!(edge_ticks(&blank().a(10..=11).trace()), [10]);
}

#[test]
fn d_five_ticks() {
    assert_eq!(edge_ticks(&blank().a(10..=14).trace()), [10]);
}

#[test]
fn e_six_ticks() {
    assert_eq!(edge_ticks(&blank().a(10..=15).trace()), [10, 12]);
}

#[test]
fn f_eleven_ticks() {
    assert_eq!(edge_ticks(&blank().a(10..=20).trace()), [10, 17]);
}

#[test]
fn g_twelve_ticks() {
    assert_eq!(edge_ticks(&blank().a(10..=21).trace()), [10, 14, 18]);
}

#[test]
fn h_rising_slope_at_18() {
    let trace = blank().a(10..=21).p(18).trace();
    assert_eq!(edge_ticks(&trace), [10, 14, 18]);
}

#[test]
fn h_rising_slope_at_17() {
    let trace = blank().a(10..=21).p(17).trace();
    assert_eq!(edge_ticks(&trace), [10, 17]);
}

#[test]
fn i_falling_slope_on_13_to_15() {
    let trace = blank().a(10..=15).n(13..=15).trace();
    assert_eq!(edge_ticks(&trace), [10]);
}

#[test]
fn i_falling_slope_on_13_alone() {
    let trace = blank().a(10..=15).n(13..=13).trace();
    assert_eq!(edge_ticks(&trace), [10, 12]);
}

#[test]
fn j_167_and_169_apart_are_brackets() {
    assert_eq!(machine_of_pulses(&[10, 177]).totals.found, 1);
    assert_eq!(machine_of_pulses(&[10, 179]).totals.found, 1);
}

#[test]
fn j_166_and_170_apart_are_none() {
    assert_eq!(machine_of_pulses(&[10, 176]).totals.found, 0);
    assert_eq!(machine_of_pulses(&[10, 180]).totals.found, 0);
}

#[test]
fn k_c2_with_spi_is_no_reply() {
    let machine = machine_of_pulses(&[10, 46, 178, 214]);
    assert_eq!(machine.totals.in_order(), [2, 1, 0, 1, 0, 0]);
    assert_eq!(machine.replies.len(), 1);
    assert_eq!(record(&machine.replies[0])[2..4], [0x60, 0x04]);
}

#[test]
fn l_phantom() {
    let machine = machine_of_pulses(&[10, 22, 34, 178, 190, 202]);
    assert_eq!(machine.totals.in_order(), [3, 2, 0, 0, 0, 1]);
    let kept: Vec<i64> = machine.replies.iter().map(|reply| reply.q).collect();
    assert_eq!(kept, [10, 34]);
}

#[test]
fn m_fifth_reply_is_lost() {
    let machine = machine_of_pulses(&[10, 13, 16, 19, 22, 178, 181, 184, 187, 190]);
    assert_eq!(machine.totals.in_order(), [5, 4, 0, 0, 1, 0]);
}

#[test]
fn printed_survey() {
    let mut samples = vec!["0000"; 200];
    for tick in (10..=13).chain(178..=181) {
        samples[tick] = "0950";
    }
    for piece in [1, 7, 64] {
        let pieces = samples.chunks(piece).map(|part| part.concat());
        let takes: String = pieces.map(|part| format!("02{part}\n")).collect();
        let input = format!("01010000\n{takes}03\n");
        let expected = "11001420007fff010200a04054000000000000\n12000100010000000000000000\n";
        assert_eq!(survey(input.as_bytes()), expected);
    }
}
