//! Cases of the rules beyond document 01's examples, with results worked out by hand.

mod drawing;

use drawing::{edge, edge_ticks, edge_without_m, edges_at, Drawing};
use model::brackets::{bracket_at, Bracket};
use model::edges::{edges, marks, runs, Edge, End, Kind, Run};
use model::frames::hexadecimal;
use model::machine::machine_on;
use model::records::record;
use model::replies::Reply;
use model::samples::{is_bad, Trace, A, M};

/// The totals and the records, as digits, of these edges.
fn totals_and_records(edges: &[Edge]) -> ([u16; 6], Vec<String>) {
    let machine = machine_on(edges);
    let records = machine.replies.iter().map(record);
    let digits = records.map(|record| hexadecimal(&record));
    (machine.totals.in_order(), digits.collect())
}

#[test]
fn bad_flags_are_p_with_n_and_the_high_bits() {
    let good: Vec<u8> = (0..=255).filter(|&flag| !is_bad(flag)).collect();
    assert_eq!(good, [0, 1, 2, 3, 4, 5, 8, 9, 10, 11, 12, 13]);
}

#[test]
fn a_pulse_that_lasts_to_the_end_has_its_trail_after_the_last_tick() {
    let trace = Drawing::new(20, 80).a(10..=19).trace();
    let (s, e, end) = (10, 20, End::Trail);
    assert_eq!(runs(&marks(&trace)), [Run { s, e, end }]);
    assert_eq!(edge_ticks(&trace), [10, 16]);
}

#[test]
fn a_pulse_may_begin_at_tick_0_and_needs_two_ticks_at_the_end() {
    assert_eq!(edge_ticks(&Drawing::new(20, 80).a(0..=1).trace()), [0]);
    assert_eq!(edge_ticks(&Drawing::new(20, 80).a(18..=19).trace()), [18]);
    assert_eq!(edge_ticks(&Drawing::new(20, 80).a(19..=19).trace()), []);
}

#[test]
fn kinds_and_the_sample_after_an_edge() {
    let mut flags = vec![A; 12];
    flags[1] = A | M;
    let values: Vec<u8> = (0..12).collect();
    let expected = [
        (0, Kind::Actual, true, 1),
        (4, Kind::Extra, false, 5),
        (8, Kind::Pseudo, false, 9),
    ];
    let found = edges(&Trace::new(&flags, &values));
    let found: Vec<_> = found
        .iter()
        .map(|e| (e.tick, e.kind, e.m, e.value))
        .collect();
    assert_eq!(found, expected);
}

#[test]
fn a_rising_slope_needs_two_high_ticks_before_it() {
    let early = Drawing::new(40, 80).a(10..=14).p(11).trace();
    assert_eq!(edge_ticks(&early), [10]);
    let third = Drawing::new(40, 80).a(10..=14).p(12).trace();
    assert_eq!(edge_ticks(&third), [10, 12]);
    let goes_on = Drawing::new(40, 80).a(10..=14).p(12).p(13).trace();
    assert_eq!(edge_ticks(&goes_on), [10, 12]);
}

#[test]
fn each_way_of_a_falling_slope_ends_a_run() {
    let end_of = |drawing: Drawing| runs(&marks(&drawing.trace()))[0].e;
    let base = || Drawing::new(40, 80).a(10..=19);
    assert_eq!(end_of(base()), 20);
    assert_eq!(end_of(base().n(19..=19)), 19);
    assert_eq!(end_of(base().n(18..=19)), 18);
    assert_eq!(end_of(base().n(13..=15)), 13);
    assert_eq!(end_of(base().n(13..=14).p(15)), 13);
    let once = Drawing::new(40, 80).a(10..=19).n(13..=14);
    assert_eq!(end_of(once), 20);
}

#[test]
fn after_a_falling_slope_only_a_lead_makes_video_high_again() {
    let trace = Drawing::new(40, 80).a(10..=30).n(13..=15).p(20).trace();
    let expected = [(10, 13, End::Trail), (20, 31, End::Trail)];
    let found: Vec<_> = runs(&marks(&trace))
        .iter()
        .map(|r| (r.s, r.e, r.end))
        .collect();
    assert_eq!(found, expected);
    assert_eq!(edge_ticks(&trace), [10, 20, 27]);
}

#[test]
fn f2_is_looked_for_at_168_then_167_then_169() {
    let f2 = |ticks: &[i64]| bracket_at(&edges_at(ticks), edge(10, 80)).map(|b| b.f2.tick);
    assert_eq!(f2(&[10, 177, 178, 179]), Some(178));
    assert_eq!(f2(&[10, 177, 179]), Some(177));
    assert_eq!(f2(&[10, 179]), Some(179));
    assert_eq!(f2(&[10, 176, 180]), None);
}

#[test]
fn agreeing_values_are_averaged_one_by_one() {
    let edges = [edge(10, 80), edge(22, 84), edge(178, 88)];
    let (totals, records) = totals_and_records(&edges);
    assert_eq!(totals, [1, 1, 0, 0, 0, 0]);
    assert_eq!(records, ["001420017fff010300fc4055400000000000"]);
}

#[test]
fn values_agree_up_to_a_difference_of_8() {
    let (_, records) = totals_and_records(&[edge(10, 80), edge(178, 72)]);
    assert_eq!(records, ["001420007fff010200984053000000000000"]);
    let (_, records) = totals_and_records(&[edge(10, 80), edge(178, 71)]);
    assert_eq!(records, ["001420005fff000100504054000000000000"]);
}

#[test]
fn an_edge_without_m_is_code_0_with_confidence_0() {
    let edges = [edge(10, 80), edge_without_m(22, 80), edge(178, 80)];
    let (_, records) = totals_and_records(&edges);
    assert_eq!(records, ["001420007ffe010200a04054000000000000"]);
}

#[test]
fn a_position_reaches_one_tick_to_each_side() {
    let (_, records) = totals_and_records(&edges_at(&[10, 21, 35, 44, 60, 178]));
    assert_eq!(&records[0][4..8], "2003");
    assert_eq!(&records[0][8..12], "7fff");
}

#[test]
fn a_position_is_settled_once() {
    let edges = [edge(10, 80), edge(21, 200), edge(23, 80), edge(178, 80)];
    let (_, records) = totals_and_records(&edges);
    assert_eq!(records, ["001420017ffe010200a04054000000000000"]);
}

#[test]
fn values_that_agree_with_own_and_other() {
    let (totals, records) = totals_and_records(&edges_at(&[10, 34, 58, 178, 202]));
    assert_eq!(totals, [2, 2, 0, 0, 0, 0]);
    let expected = [
        "0014200a5ff5000100504054000000000000",
        "0044280277fd020100504054000000000000",
    ];
    assert_eq!(records, expected);
}

#[test]
fn values_that_agree_with_one_of_two() {
    let edges = [
        edge(10, 80),
        edge(34, 200),
        edge(58, 200),
        edge(178, 80),
        edge(202, 200),
    ];
    let (totals, records) = totals_and_records(&edges);
    assert_eq!(totals, [2, 2, 0, 0, 0, 0]);
    let expected = [
        "001420007ff5010200a04054000000000000",
        "0044200277ff030201904069000000000000",
    ];
    assert_eq!(records, expected);
}

#[test]
fn military_from_203_to_205() {
    let second_flags = |spacing: i64| {
        let edges = edges_at(&[10, 178, 10 + spacing, 178 + spacing]);
        totals_and_records(&edges).1[1][12..14].to_string()
    };
    assert_eq!(second_flags(202), "01");
    assert_eq!(second_flags(203), "0a");
    assert_eq!(second_flags(204), "0a");
    assert_eq!(second_flags(205), "0a");
    assert_eq!(second_flags(206), "01");
}

#[test]
fn military_pulse_settles_spi_against_the_new_reply() {
    let (_, records) = totals_and_records(&edges_at(&[10, 178, 214, 382]));
    let expected = [
        "001460003fff010200a04054000000000000",
        "01ac20007fff0a0100504054000000000000",
    ];
    assert_eq!(records, expected);
}

#[test]
fn one_framing_pulse_with_m_is_enough() {
    let (totals, records) = totals_and_records(&[edge_without_m(10, 80), edge(178, 80)]);
    assert_eq!(totals, [1, 1, 0, 0, 0, 0]);
    assert_eq!(records, ["001420007fff050200a04054000000000000"]);
    let (totals, records) = totals_and_records(&[edge(10, 80), edge_without_m(178, 80)]);
    assert_eq!(totals, [1, 1, 0, 0, 0, 0]);
    assert_eq!(records, ["001400005fff000100504054000000000000"]);
}

#[test]
fn no_framing_pulse_with_m_is_sidelobe() {
    let (totals, records) = totals_and_records(&[edge_without_m(10, 80), edge_without_m(178, 80)]);
    assert_eq!(totals, [1, 0, 1, 0, 0, 0]);
    assert!(records.is_empty());
}

/// A reply at 10, a potential phantom at 22, and a third bracket at 34.
fn phantom_edges(f1: Edge, f2: Edge) -> Vec<Edge> {
    vec![
        edge(10, 80),
        edge(22, 80),
        f1,
        edge(178, 80),
        edge(190, 80),
        f2,
    ]
}

#[test]
fn a_garbled_bracket_still_removes_a_phantom() {
    let edges = phantom_edges(edge(34, 80), edge_without_m(202, 80));
    assert_eq!(totals_and_records(&edges).0, [3, 1, 0, 1, 0, 1]);
}

#[test]
fn a_sidelobe_bracket_removes_none() {
    let edges = phantom_edges(edge_without_m(34, 80), edge_without_m(202, 80));
    assert_eq!(totals_and_records(&edges).0, [3, 2, 1, 0, 0, 0]);
}

#[test]
fn a_phantom_is_removed_within_2_ticks_of_a_position() {
    let totals = |u: i64| {
        let ticks = [10, 22, u, 178, 190, u + 168];
        totals_and_records(&edges_at(&ticks)).0
    };
    assert_eq!(totals(31), [3, 3, 0, 0, 0, 0]);
    assert_eq!(totals(32), [3, 2, 0, 0, 0, 1]);
    assert_eq!(totals(36), [3, 2, 0, 0, 0, 1]);
    assert_eq!(totals(37), [3, 3, 0, 0, 0, 0]);
}

/// The phantoms that a bracket at u removes, of a reply at 10 and a potential phantom at 22.
fn phantoms_removed_at(u: i64) -> u16 {
    let mut ticks = vec![10, 22, 178, 190, u, u + 168];
    ticks.sort();
    ticks.dedup();
    totals_and_records(&edges_at(&ticks)).0[5]
}

/// Near position 0, at 15 and 16, and at 17 none is removed.
#[test]
fn a_phantom_is_removed_near_positions_1_to_14_and_nowhere_else() {
    let removing = (2..=205).filter(|distance| phantoms_removed_at(22 + distance) == 1);
    let near = (1..=14).flat_map(|k| 12 * k - 2..=12 * k + 2);
    assert_eq!(removing.collect::<Vec<i64>>(), near.collect::<Vec<i64>>());
}

/// The totals of a reply at 10, a bracket with these two framing pulses, and a third bracket. Where
/// the second begins at the first's F2, that is one pulse.
fn totals_of_three(second: (i64, i64), third: i64) -> [u16; 6] {
    let mut ticks = vec![10, second.0, second.1, third, third + 168];
    if !(177..=179).contains(&second.0) {
        ticks.push(178);
    }
    ticks.sort();
    totals_and_records(&edges_at(&ticks)).0
}

/// The second bracket begins in the middle of a position, a tick before it or a tick behind; the
/// third, which no reply covers, then removes it. In the middle of position 3 its F2 is at SPI, and
/// it is garbled.
#[test]
fn a_reply_covered_at_any_of_positions_1_to_14_is_a_potential_phantom() {
    for k in 1..=14 {
        for (slip, further) in [(-1, 10), (0, 14), (1, 14)] {
            let f1 = 10 + 12 * k + slip;
            let f2 = f1 + 168 + slip;
            let expected = match f2 {
                214 => [3, 2, 0, 1, 0, 0],
                _ => [3, 2, 0, 0, 0, 1],
            };
            let totals = totals_of_three((f1, f2), f1 + further);
            assert_eq!(totals, expected, "position {k}, {slip}");
        }
    }
}

#[test]
fn a_reply_two_ticks_beside_a_position_is_no_potential_phantom() {
    for k in 1..=14 {
        for f1 in [10 + 12 * k - 2, 10 + 12 * k + 2] {
            let totals = totals_of_three((f1, f1 + 168), f1 + 12);
            assert_eq!(totals, [3, 3, 0, 0, 0, 0], "F1 at {f1}");
        }
    }
}

#[test]
fn a_phantom_is_removed_before_four_are_counted() {
    let edges = edges_at(&[10, 13, 16, 22, 34, 178, 181, 184, 190, 202]);
    assert_eq!(totals_and_records(&edges).0, [5, 4, 0, 0, 0, 1]);
}

#[test]
fn a_lost_bracket_goes_on_as_a_code_pulse() {
    let edges = edges_at(&[10, 13, 16, 19, 25, 178, 181, 184, 187, 193]);
    let (totals, records) = totals_and_records(&edges);
    assert_eq!(totals, [5, 4, 0, 0, 1, 0]);
    assert_eq!(&records[1][4..8], "2001");
}

#[test]
fn with_four_open_a_bracket_may_be_garbled_before_it_is_lost() {
    let mut edges = edges_at(&[10, 13, 16, 19, 22, 178, 181, 184, 187]);
    edges.push(edge_without_m(190, 80));
    assert_eq!(totals_and_records(&edges).0, [5, 4, 0, 1, 0, 0]);
}

#[test]
fn a_reply_covered_at_spi_alone_is_no_potential_phantom() {
    let edges = edges_at(&[10, 178, 214, 226, 382, 394]);
    assert_eq!(totals_and_records(&edges).0, [3, 3, 0, 0, 0, 0]);
}

#[test]
fn an_open_reply_that_does_not_cover_an_edge_is_no_other() {
    let (totals, records) = totals_and_records(&edges_at(&[10, 13, 22, 178, 181]));
    assert_eq!(totals, [2, 2, 0, 0, 0, 0]);
    let expected = [
        "001420017fff010300f04054000000000000",
        "001a20007fff010200a04054000000000000",
    ];
    assert_eq!(records, expected);
}

#[test]
fn a_reply_is_open_up_to_205_ticks_after_f1() {
    let sixth = |q: i64| {
        let ticks = [10, 13, 16, 19, 178, 181, 184, 187, q, q + 168];
        totals_and_records(&edges_at(&ticks)).0
    };
    assert_eq!(sixth(213), [5, 4, 0, 0, 1, 0]);
    assert_eq!(sixth(216), [5, 5, 0, 0, 0, 0]);
}

#[test]
fn sixteen_values_are_counted() {
    let positions = (0..=14).chain([17]);
    let edges: Vec<Edge> = positions.map(|k| edge(10 + 12 * k, 80)).collect();
    let (totals, records) = totals_and_records(&edges);
    assert_eq!(totals, [2, 1, 0, 1, 0, 0]);
    assert_eq!(records, ["00147fff7fff011005004054000000000000"]);
}

/// The reference of the reply at 34 moves from 80 to 96, so that F2, heard at its tick, would not
/// agree with it any more. F1 has no M.
#[test]
fn where_f2_is_the_reference_position_14_is_settled_at_the_opening() {
    let edges = [
        edge(10, 200),
        edge_without_m(34, 80),
        edge(46, 88),
        edge(58, 92),
        edge(70, 96),
        edge(82, 100),
        edge(178, 200),
        edge(202, 80),
    ];
    let (totals, records) = totals_and_records(&edges);
    assert_eq!(totals, [2, 2, 0, 0, 0, 0]);
    let expected = [
        "001420007fc1010201904069000000000000",
        "0044200f77ff030501c84058000000000000",
    ];
    assert_eq!(records, expected);
}

/// The machine opens no such reply, as its bracket is garbled.
#[test]
fn where_f2_is_the_reference_its_m_is_the_confidence_of_position_14() {
    let opened = |f1: Edge, f2: Edge, open: &[Reply]| Reply::opening(&Bracket { f1, f2 }, open);
    let first = opened(edge(10, 200), edge(178, 200), &[]);
    let digits = |f2: Edge| hexadecimal(&record(&opened(edge(34, 80), f2, &[first])));
    let with_m = "004420007fff020100504054000000000000";
    assert_eq!(digits(edge(202, 80)), with_m);
    let without_m = "004420005fff060100504054000000000000";
    assert_eq!(digits(edge_without_m(202, 80)), without_m);
}
