//! Every refusal number, alone and with a later one of its call holding too.

use model::frames::{read, Frame};
use model::refusals::Refusal;
use model::sweep::{take_bytes, Processor, CLOSE_BYTES, PIECE_TICKS, SWEEP_TICKS};

fn opened() -> Processor {
    Processor::open(1, 0).expect("mode 1 at azimuth 0 opens")
}

/// The number of a take's refusal, after checking that nothing has changed.
fn take_number(processor: &Processor, flags: &[u8], values: &[u8], lent: usize) -> u8 {
    let mut after = processor.clone();
    let mut buffer = vec![0xee; lent];
    let refusal = after
        .take(flags, values, &mut buffer)
        .expect_err("a refusal");
    assert_eq!(&after, processor);
    assert_eq!(buffer, vec![0xee; lent]);
    refusal.number()
}

/// An open sweep with as many ticks as it may have.
fn full() -> Processor {
    let mut processor = opened();
    let piece = [0; PIECE_TICKS];
    let mut buffer = vec![0; take_bytes(PIECE_TICKS)];
    for _ in 0..SWEEP_TICKS / PIECE_TICKS {
        assert_eq!(processor.take(&piece, &piece, &mut buffer), Ok(0));
    }
    processor
}

#[test]
fn opening_refuses_1_then_2() {
    for mode in [0, 4, 255] {
        assert_eq!(Processor::open(mode, 16_383), Err(Refusal::Mode));
        assert_eq!(Processor::open(mode, 16_384), Err(Refusal::Mode));
    }
    for mode in 1..=3 {
        assert!(Processor::open(mode, 16_383).is_ok());
        assert_eq!(Processor::open(mode, 16_384), Err(Refusal::Azimuth));
    }
}

#[test]
fn taking_refuses_3_to_8_each_alone() {
    let (one, five) = ([0], [0; PIECE_TICKS + 1]);
    assert_eq!(take_number(&Processor::Idle, &one, &one, 72), 3);
    assert_eq!(take_number(&opened(), &one, &[], 72), 4);
    assert_eq!(take_number(&opened(), &five, &five, 4_000), 5);
    assert_eq!(take_number(&full(), &one, &one, 72), 6);
    assert_eq!(take_number(&opened(), &one, &one, 71), 7);
    for bad in [6, 7, 14, 15, 16, 32, 64, 128] {
        assert_eq!(take_number(&opened(), &[9, bad], &[80, 80], 72), 8);
    }
}

#[test]
fn taking_tries_its_numbers_in_order() {
    let long = vec![6; PIECE_TICKS + 1];
    let piece = vec![6; PIECE_TICKS];
    assert_eq!(take_number(&Processor::Idle, &long, &piece, 0), 3);
    assert_eq!(take_number(&full(), &long, &piece, 0), 4);
    assert_eq!(take_number(&full(), &long, &long, 0), 5);
    assert_eq!(take_number(&full(), &piece, &piece, 0), 6);
    assert_eq!(take_number(&opened(), &piece, &piece, 0), 7);
    let lent = take_bytes(PIECE_TICKS);
    assert_eq!(take_number(&opened(), &piece, &piece, lent), 8);
}

#[test]
fn the_buffer_of_a_take_has_72_bytes_for_each_206_ticks_begun() {
    for (ticks, bytes) in [(1, 72), (206, 72), (207, 144), (412, 144), (4_096, 1_440)] {
        let piece = vec![0; ticks];
        assert_eq!(take_number(&opened(), &piece, &piece, bytes - 1), 7);
        let mut buffer = vec![0; bytes];
        assert_eq!(opened().take(&piece, &piece, &mut buffer), Ok(0));
    }
}

#[test]
fn a_piece_of_0_ticks_is_taken_even_by_a_full_sweep() {
    for mut processor in [opened(), full()] {
        let before = processor.clone();
        assert_eq!(processor.take(&[], &[], &mut []), Ok(0));
        assert_eq!(processor, before);
    }
}

#[test]
fn closing_refuses_3_then_7() {
    let mut idle = Processor::Idle;
    assert_eq!(idle.close(&mut []), Err(Refusal::NoSweep));
    let mut processor = opened();
    let mut short = [0xee; CLOSE_BYTES - 1];
    assert_eq!(processor.close(&mut short), Err(Refusal::BufferTooShort));
    assert_eq!(processor, opened());
    assert_eq!(short, [0xee; CLOSE_BYTES - 1]);
    assert!(processor.close(&mut [0; CLOSE_BYTES]).is_ok());
}

#[test]
fn after_a_close_every_call_but_opening_is_refused_with_3() {
    let mut processor = opened();
    assert!(processor.close(&mut [0; CLOSE_BYTES]).is_ok());
    assert_eq!(processor, Processor::Idle);
    assert_eq!(processor.close(&mut [0; 200]), Err(Refusal::NoSweep));
    assert_eq!(take_number(&processor, &[6], &[], 0), 3);
}

#[test]
fn reading_a_line_refuses_9() {
    let long = format!("02{}00\n", "0000".repeat(64));
    let wrong = [
        "\n",
        "0\n",
        "010\n",
        "0101000\n",
        "03",
        "01010000",
        "0A\n",
        "0g\n",
        "03 \n",
        "03\r\n",
        " 03\n",
        "",
        &long,
    ];
    for line in wrong {
        assert_eq!(read(line.as_bytes()), Err(Refusal::BadLine), "{line:?}");
    }
    assert_eq!(read(b"\xff\xff\n"), Err(Refusal::BadLine));
}

#[test]
fn reading_a_line_refuses_10() {
    let wrong = [
        "00\n",
        "04\n",
        "11\n",
        "ff\n",
        "01\n",
        "010100\n",
        "0101000000\n",
        "02\n",
        "0209\n",
        "02095009\n",
        "0300\n",
    ];
    for line in wrong {
        assert_eq!(read(line.as_bytes()), Err(Refusal::BadFrame), "{line:?}");
    }
}

#[test]
fn reading_a_line_tries_9_before_10() {
    for line in ["04", "040\n", "0G\n", "ff0A\n"] {
        assert_eq!(read(line.as_bytes()), Err(Refusal::BadLine), "{line:?}");
    }
}

#[test]
fn frames_are_read() {
    let (mode, azimuth) = (0xab, 0xcdef);
    assert_eq!(read(b"01abcdef\n"), Ok(Frame::Open { mode, azimuth }));
    let (flags, values) = (vec![9, 10], vec![0x50, 0xff]);
    assert_eq!(read(b"0209500aff\n"), Ok(Frame::Take { flags, values }));
    let (flags, values) = (vec![1; 64], vec![2; 64]);
    let longest = format!("02{}\n", "0102".repeat(64));
    assert_eq!(read(longest.as_bytes()), Ok(Frame::Take { flags, values }));
    assert_eq!(read(b"03\n"), Ok(Frame::Close));
}
