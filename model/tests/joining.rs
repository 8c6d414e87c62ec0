//! Joining: a reply that is due is final, and no cutting changes what is handed out.

mod drawing;

use drawing::Drawing;
use model::frames::{lines, read, refusal_line, reply_line, totals_line, Frame};
use model::generate::calls::{calls, Answer, Call};
use model::generate::input::{input, take_lines};
use model::generate::random::Random;
use model::generate::{short_length, trace, Kind, KINDS};
use model::machine::machine_of;
use model::records::{record, Record, RECORD_BYTES};
use model::refusals::Refusal;
use model::samples::Trace;
use model::survey::survey;
use model::sweep::{due_at, take_bytes, Processor, CLOSE_BYTES};

/// The records of the replies that are due after these ticks, by the rules on this trace.
fn due(trace: &Trace, ticks: i64) -> Vec<Record> {
    let machine = machine_of(trace);
    let due = machine.replies.iter().filter(|r| due_at(r.q) <= ticks);
    due.map(record).collect()
}

#[test]
fn a_reply_that_is_due_is_final() {
    let mut random = Random::new(41);
    let mut seen = 0;
    for (_, kind) in KINDS {
        for _ in 0..6 {
            let ticks = random.within(385..=1_500) as usize;
            let whole = trace(kind, ticks, &mut random);
            let at_end = machine_of(&whole).replies;
            for taken in 385..=ticks {
                let final_ones = at_end.iter().filter(|r| due_at(r.q) <= taken as i64);
                let final_ones: Vec<Record> = final_ones.map(record).collect();
                assert_eq!(due(&whole.prefix(taken), taken as i64), final_ones);
                seen += final_ones.len();
            }
        }
    }
    assert!(seen > 10_000, "only {seen} due replies were compared");
}

/// Pulses at 10, 178 and 215, and a run from 380 that falls at 391 if N goes on to the last tick
/// given. Without the fall, 384 is an extra edge and F2 of a reply at 215, which spoils SPI of the
/// reply at 10.
fn late_fall(last: usize) -> Trace {
    let pulses = Drawing::new(420, 80).pulses(&[10, 178, 215]);
    pulses.a(380..=400).n(391..=last).trace()
}

#[test]
fn a_reply_is_final_no_sooner_than_384_ticks_after_f1() {
    let (falls, stays) = (late_fall(393), late_fall(392));
    assert_eq!(falls.prefix(393), stays.prefix(393));
    assert_ne!(falls.prefix(394), stays.prefix(394));
    assert_eq!(machine_of(&falls).totals.in_order(), [1, 1, 0, 0, 0, 0]);
    assert_eq!(machine_of(&stays).totals.in_order(), [2, 2, 0, 0, 0, 0]);
    assert_ne!(due(&falls, 395), due(&stays, 395));
    for whole in [falls, stays] {
        assert_eq!(due(&whole.prefix(395), 395), due(&whole, 395));
    }
}

/// The survey, one take at a time through the direct operations.
fn survey_take_by_take(input: &[u8]) -> String {
    let mut processor = Processor::Idle;
    let mut printed = String::new();
    for line in lines(input) {
        let outcome = read(line).and_then(|frame| print_frame(&mut processor, &frame));
        match outcome {
            Ok(lines) => printed += &lines,
            Err(refusal) => return printed + &refusal_line(refusal),
        }
    }
    printed
}

/// The lines of one frame.
fn print_frame(processor: &mut Processor, frame: &Frame) -> Result<String, Refusal> {
    match frame {
        Frame::Open { mode, azimuth } => {
            *processor = Processor::open(*mode, *azimuth)?;
            Ok(String::new())
        }
        Frame::Take { flags, values } => {
            let mut buffer = vec![0; take_bytes(flags.len())];
            let written = processor.take(flags, values, &mut buffer)?;
            Ok(reply_lines(&buffer, written))
        }
        Frame::Close => {
            let mut buffer = vec![0; CLOSE_BYTES];
            let closed = processor.close(&mut buffer)?;
            Ok(reply_lines(&buffer, closed.written) + &totals_line(&closed.totals))
        }
    }
}

fn reply_lines(buffer: &[u8], written: usize) -> String {
    let (records, _) = buffer.as_chunks::<RECORD_BYTES>();
    records[..written].iter().map(reply_line).collect()
}

#[test]
fn the_survey_prints_what_it_prints_take_by_take() {
    let mut random = Random::new(42);
    let mut replies = 0;
    for round in 0..400 {
        let mut whole = input(Kind::Mixed, 3, short_length, &mut random);
        if round % 4 == 0 {
            whole = model::generate::damage::damaged(&whole, &mut random);
            whole.truncate(40_000);
        }
        let printed = survey(&whole);
        assert_eq!(printed, survey_take_by_take(&whole));
        replies += printed.lines().filter(|l| l.starts_with("11")).count();
    }
    assert!(replies > 1_000, "only {replies} replies were printed");
}

#[test]
fn every_cutting_prints_the_same() {
    let mut random = Random::new(43);
    for round in 0..150 {
        let (_, kind) = KINDS[round % KINDS.len()];
        let ticks = random.within(0..=3_000) as usize;
        let whole = trace(kind, ticks, &mut random);
        let machine = machine_of(&whole);
        let replies = machine
            .replies
            .iter()
            .map(|reply| reply_line(&record(reply)));
        let expected = replies.collect::<String>() + &totals_line(&machine.totals);
        for _ in 0..6 {
            let takes = take_lines(&whole, &mut random).concat();
            let input = format!("01020123\n{takes}03\n");
            assert_eq!(survey(input.as_bytes()), expected);
        }
    }
}

/// What a list of calls has handed out, and what its accepted pieces join to.
#[derive(Default)]
struct Ledger {
    handed_out: Vec<u8>,
    flags: Vec<u8>,
    values: Vec<u8>,
    closed: usize,
}

impl Ledger {
    /// Carry out one call and check what it leaves in the buffer.
    fn carry_out(&mut self, processor: &mut Processor, call: &Call) {
        let mut buffer = vec![0xee; call.lent()];
        let before = processor.clone();
        let answer = call.carry_out(processor, &mut buffer);
        let written = match answer {
            Ok(Answer::Taken { written }) | Ok(Answer::Closed { written, .. }) => written,
            Ok(Answer::Opened) => {
                *self = Ledger {
                    closed: self.closed,
                    ..Ledger::default()
                };
                0
            }
            Err(_) => {
                assert_eq!(processor, &before);
                0
            }
        };
        let (records, rest) = buffer.split_at(written * RECORD_BYTES);
        assert!(rest.iter().all(|&byte| byte == 0xee));
        self.handed_out.extend_from_slice(records);
        self.check(call, &answer);
    }

    /// Join an accepted piece; at a close compare with the rules on the joined trace.
    fn check(&mut self, call: &Call, answer: &Result<Answer, Refusal>) {
        if let (Call::Take { flags, values, .. }, Ok(_)) = (call, answer) {
            self.flags.extend_from_slice(flags);
            self.values.extend_from_slice(values);
        }
        if let Ok(Answer::Closed { totals, .. }) = answer {
            let machine = machine_of(&Trace::new(&self.flags, &self.values));
            let records: Vec<Record> = machine.replies.iter().map(record).collect();
            assert_eq!(self.handed_out, records.concat());
            assert_eq!(*totals, machine.totals);
            self.closed += 1;
        }
    }
}

#[test]
fn direct_calls_hand_out_the_replies_of_the_joined_trace() {
    let mut random = Random::new(44);
    let mut ledger = Ledger::default();
    for _ in 0..400 {
        let mut processor = Processor::Idle;
        for call in calls(&mut random) {
            ledger.carry_out(&mut processor, &call);
        }
    }
    assert!(
        ledger.closed > 300,
        "only {} sweeps were closed",
        ledger.closed
    );
}
