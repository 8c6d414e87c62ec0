//! The stored run of the program crates/test_calls: a few calls, with outcomes from the model
//! alone. The model has no fields of a processor in the middle of a sweep, so there none is shown.

use crate::form::{end, fresh_processor, told, Outcome, Placed};
use crate::session::is_refused_open;
use model::generate::calls::Call;
use model::sweep::Processor;

/// Input and output of the run.
pub struct Stored {
    pub stdin: Vec<u8>,
    pub stdout: Vec<u8>,
}

/// Document 01's printed example, with a refusal of each number but 6 around it.
fn calls() -> Vec<Call> {
    let mut flags = vec![0; 200];
    let mut values = vec![0; 200];
    for t in (10..=13).chain(178..=181) {
        flags[t] = 9;
        values[t] = 80;
    }
    let open = |mode, azimuth| Call::Open { mode, azimuth };
    let close = |lent| Call::Close { lent };
    let take = |flags: &[u8], values: &[u8], lent| Call::Take {
        flags: flags.to_vec(),
        values: values.to_vec(),
        lent,
    };
    let long = vec![0; 4_097];
    let mut bad = flags.clone();
    bad[199] = 6;
    vec![
        close(144),
        take(&flags, &values, 72),
        open(0, 16_384),
        open(3, 16_384),
        open(1, 0),
        open(4, 0),
        take(&[], &[], 0),
        take(&flags, &values[1..], 72),
        take(&long, &long, 1_440),
        take(&bad, &values, 71),
        take(&bad, &values, 72),
        take(&flags, &values, 72),
        close(143),
        close(160),
        take(&[], &[], 0),
    ]
}

/// The bytes of the processor after the call, if the model can tell them.
fn processor_bytes(processor: &Processor, call: &Call, before: Option<Vec<u8>>) -> Option<Vec<u8>> {
    match (processor, call) {
        (Processor::Idle, _) => Some(fresh_processor(0, 0)),
        (_, Call::Open { mode, azimuth }) => Some(fresh_processor(*mode, *azimuth)),
        (_, Call::Take { flags, .. }) if flags.is_empty() => before,
        _ => None,
    }
}

/// The run, made by the model.
pub fn stored() -> Stored {
    let mut model = Processor::Idle;
    let mut bytes = Some(fresh_processor(0, 0));
    let (mut stdin, mut stdout) = (Vec::new(), Vec::new());
    for call in calls() {
        let mut buffer = vec![0xa5; call.lent()];
        let result = call.carry_out(&mut model, &mut buffer);
        if result.is_ok() {
            bytes = processor_bytes(&model, &call, bytes);
        }
        let given = if is_refused_open(&call, &result) {
            Some(fresh_processor(0, 0))
        } else {
            bytes.clone()
        };
        let placed = Placed {
            call,
            shown: given.is_some(),
            around: 0xff,
            fill: 0xa5,
            starts: (1_000, 3_001),
        };
        let not_shown = vec![placed.fill; fresh_processor(0, 0).len()];
        let shown = given.as_ref().unwrap_or(&not_shown);
        stdin.extend(placed.bytes());
        stdout.extend(Outcome::of(&told(&result), shown, &buffer).0);
    }
    stdin.extend(end());
    Stored { stdin, stdout }
}

#[cfg(test)]
mod tests {
    use super::{calls, stored};
    use model::generate::calls::Answer;
    use model::sweep::Processor;
    use std::path::Path;

    /// The numbers with which calls of the run are refused, and the records that others hand out.
    fn answers() -> (Vec<u8>, usize) {
        let mut model = Processor::Idle;
        let (mut numbers, mut records) = (Vec::new(), 0);
        for call in calls() {
            match call.carry_out(&mut model, &mut vec![0; call.lent()]) {
                Err(refusal) => numbers.push(refusal.number()),
                Ok(Answer::Taken { written }) | Ok(Answer::Closed { written, .. }) => {
                    records += written
                }
                Ok(Answer::Opened) => {}
            }
        }
        (numbers, records)
    }

    #[test]
    fn the_files_of_the_crate_are_those_of_the_model() {
        let folder = Path::new(env!("CARGO_MANIFEST_DIR")).join("../crates/test_calls");
        let file = |name| std::fs::read(folder.join(name)).expect("a stored file");
        let stored = stored();
        assert!(file("stdin") == stored.stdin, "stdin differs");
        assert!(file("stdout") == stored.stdout, "stdout differs");
    }

    #[test]
    fn the_run_meets_the_refusals_and_the_reply_of_the_printed_example() {
        let expected = vec![3, 3, 1, 2, 1, 4, 5, 7, 8, 7, 3];
        assert_eq!(answers(), (expected, 1));
    }
}
