//! What the survey prints for whole inputs, refusals included.

use model::generate::damage::{damaged, damaged_by, Damage};
use model::generate::input::{input, take_line};
use model::generate::random::Random;
use model::generate::{short_length, Kind};
use model::refusals::Refusal;
use model::survey::{survey, surveyed, Refused};

/// A reply with F1 at 10 in a sweep of this many ticks, as lines of one tick.
fn one_reply(ticks: usize) -> String {
    let mut flags = vec![0; ticks];
    let mut values = vec![0; ticks];
    for tick in (10..=13).chain(178..=181) {
        flags[tick] = 9;
        values[tick] = 0x50;
    }
    let pieces = flags.chunks(1).zip(values.chunks(1));
    let takes: String = pieces
        .map(|(flags, values)| take_line(flags, values))
        .collect();
    format!("01010000\n{takes}")
}

const REPLY: &str = "11001420007fff010200a04054000000000000\n";
const TOTALS: &str = "12000100010000000000000000\n";

fn printed(input: &str) -> String {
    survey(input.as_bytes())
}

#[test]
fn an_empty_input_prints_nothing() {
    assert_eq!(printed(""), "");
}

#[test]
fn an_empty_sweep_prints_its_totals() {
    assert_eq!(printed("01010000\n03\n"), "12000000000000000000000000\n");
}

#[test]
fn a_reply_is_printed_once_395_ticks_are_taken_even_without_a_close() {
    assert_eq!(printed(&one_reply(394)), "");
    assert_eq!(printed(&one_reply(395)), REPLY);
    assert_eq!(
        printed(&(one_reply(394) + "03\n")),
        [REPLY, TOTALS].concat()
    );
    assert_eq!(
        printed(&(one_reply(395) + "03\n")),
        [REPLY, TOTALS].concat()
    );
}

#[test]
fn an_opening_during_a_sweep_starts_afresh() {
    let dropped = one_reply(394) + "01030001\n03\n";
    assert_eq!(printed(&dropped), "12000000000000000000000000\n");
    let due = one_reply(395) + &one_reply(200) + "03\n";
    assert_eq!(printed(&due), [REPLY, REPLY, TOTALS].concat());
}

#[test]
fn the_first_refusal_stops_after_what_was_due() {
    for (line, number) in [
        ("01000000\n", "01"),
        ("01044000\n", "01"),
        ("01034000\n", "02"),
        ("020650\n", "08"),
        ("\n", "09"),
        ("04\n", "0a"),
        ("0300\n", "0a"),
        ("03", "09"),
        ("01010000", "09"),
        ("04", "09"),
    ] {
        let rest = if line.ends_with('\n') { "03\n" } else { "" };
        let refusal = format!("1f{number}\n");
        assert_eq!(printed(&(one_reply(200) + line + rest)), refusal);
        let due = one_reply(395) + line + rest;
        assert_eq!(printed(&due), format!("{REPLY}{refusal}"));
    }
}

#[test]
fn without_an_open_sweep_taking_and_closing_are_refused() {
    for line in ["020950\n", "020650\n", "03\n"] {
        assert_eq!(printed(line), "1f03\n");
        let after = one_reply(200) + "03\n" + line;
        assert_eq!(printed(&after), format!("{REPLY}{TOTALS}1f03\n"));
    }
}

#[test]
fn a_frame_refused_with_9_or_10_is_not_tried_for_3() {
    assert_eq!(printed("0209\n"), "1f0a\n");
    assert_eq!(printed("03"), "1f09\n");
}

#[test]
fn a_sweep_over_the_limit_is_refused_with_6_before_8() {
    let fill = format!("02{}\n", "0000".repeat(64)).repeat(512);
    let at_limit = format!("01010000\n{fill}");
    let closed = at_limit.clone() + "03\n";
    assert_eq!(printed(&closed), "12000000000000000000000000\n");
    assert_eq!(printed(&(at_limit.clone() + "020000\n03\n")), "1f06\n");
    assert_eq!(printed(&(at_limit + "020650\n")), "1f06\n");
}

#[test]
fn undamaged_inputs_are_never_refused() {
    let mut random = Random::new(31);
    for _ in 0..300 {
        let whole = input(Kind::Mixed, 2, short_length, &mut random);
        let printed = survey(&whole);
        assert!(!printed.lines().any(|line| line.starts_with("1f")));
    }
}

#[test]
fn a_damage_of_one_kind_gives_its_number() {
    let mut random = Random::new(32);
    for (damage, number) in [
        (Damage::Mode, "1f01\n"),
        (Damage::Azimuth, "1f02\n"),
        (Damage::NotOpen, "1f03\n"),
        (Damage::TooManyTicks, "1f06\n"),
        (Damage::BadFlag, "1f08\n"),
        (Damage::LongLine, "1f09\n"),
        (Damage::OddLine, "1f09\n"),
        (Damage::EmptyLine, "1f09\n"),
        (Damage::UnknownKind, "1f0a\n"),
        (Damage::WrongLength, "1f0a\n"),
    ] {
        for _ in 0..20 {
            let whole = [one_reply(200).as_bytes(), b"03\n"].concat();
            let printed = survey(&damaged_by(damage, &whole, &mut random));
            assert!(printed.ends_with(number), "{damage:?} printed {printed}");
        }
    }
}

/// A trace stops the program at a bad flag byte, so one that reached the rules would be seen.
#[test]
fn damaged_inputs_print_lines_of_known_form_and_stop_at_a_refusal() {
    let mut random = Random::new(33);
    let mut refused = 0;
    for _ in 0..3_000 {
        let whole = input(Kind::Mixed, 2, short_length, &mut random);
        let printed = survey(&damaged(&whole, &mut random));
        let lines: Vec<&str> = printed.lines().collect();
        for (place, line) in lines.iter().enumerate() {
            let last = place + 1 == lines.len();
            match &line[..2] {
                "11" => assert_eq!(line.len(), 38),
                "12" => assert_eq!(line.len(), 26),
                "1f" => assert!(last && line.len() == 4),
                _ => panic!("unknown line {line}"),
            }
        }
        refused += lines.iter().filter(|line| line.starts_with("1f")).count();
    }
    assert!(refused > 2_000, "only {refused} of 3,000 were refused");
}

#[test]
#[should_panic(expected = "a bad flag byte")]
fn a_trace_stops_the_program_at_a_bad_flag_byte() {
    model::samples::Trace::new(&[9, 6], &[80, 80]);
}

#[test]
fn a_refusal_is_certain_at_the_end_of_its_line() {
    let open = "01010000\n";
    for (rest, refusal, byte) in [
        ("", None, 0),
        ("03\n03\n020950\n", Some(Refusal::NoSweep), 15),
        ("020650\n03\n", Some(Refusal::BadFlag), 16),
        ("\n03\n", Some(Refusal::BadLine), 10),
        ("02g950\n03\n", Some(Refusal::BadLine), 16),
        ("0209", Some(Refusal::BadLine), 13),
        ("0300\n03\n", Some(Refusal::BadFrame), 14),
        ("01040000\n03\n", Some(Refusal::Mode), 18),
    ] {
        let refused = surveyed(format!("{open}{rest}").as_bytes()).refused;
        let expected = refusal.map(|refusal| Refused { refusal, byte });
        assert_eq!(refused, expected, "{rest:?}");
    }
}

#[test]
fn a_line_is_too_long_after_259_bytes_without_a_newline() {
    let full = format!("02{}", "0950".repeat(64));
    for (line, byte) in [
        (format!("{full}0\n"), 268),
        (format!("{full}00\n"), 268),
        (format!("{full}0"), 268),
        (full.clone(), 267),
        (full.repeat(1_000), 268),
    ] {
        let refused = surveyed(format!("01010000\n{line}").as_bytes()).refused;
        let refusal = Refusal::BadLine;
        assert_eq!(refused, Some(Refused { refusal, byte }));
    }
    let good = format!("01010000\n{full}\n03\n");
    assert_eq!(surveyed(good.as_bytes()).refused, None);
}
