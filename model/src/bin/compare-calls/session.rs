//! Calls carried out by the model, beside the outcomes of the program.

use crate::form::{field_at, told, Outcome, Placed, Told};
use crate::tally::Tally;
use model::generate::calls::{Answer, Call};
use model::machine::Machine;
use model::records::{record, RECORD_BYTES};
use model::refusals::Refusal;
use model::sweep::{due_at, Processor, CLOSE_BYTES};

/// The words for the numbers of an answer.
const TOLD: [&str; 8] = [
    "accepted 1 or refused 2",
    "count or number",
    "found",
    "replies",
    "sidelobe",
    "garbled",
    "lost",
    "phantoms",
];

/// Where both stand between two calls.
pub struct Session {
    model: Processor,
    settings: (u8, u16),
    /// The values of the sweep's ticks.
    values: Vec<u8>,
    /// The bytes of the program's processor: now, at the start, and in sweeps of this list after
    /// so many ticks.
    now: Vec<u8>,
    idle: Vec<u8>,
    after: Vec<Option<Vec<u8>>>,
}

impl Session {
    /// The session before the first opening, with the bytes of the program's processor there.
    pub fn new(idle: &[u8]) -> Session {
        Session {
            model: Processor::Idle,
            settings: (0, 0),
            values: Vec::new(),
            now: idle.to_vec(),
            idle: idle.to_vec(),
            after: Vec::new(),
        }
    }

    /// Carry the call out, and say how the program's outcome differs.
    pub fn check(
        &mut self,
        placed: &Placed,
        whole: Option<&Machine>,
        outcome: &Outcome,
        tally: &mut Tally,
    ) -> Result<(), String> {
        let mut buffer = vec![placed.fill; placed.call.lent()];
        let result = match whole {
            Some(machine) => self.carry_out_on(machine, &placed.call, &mut buffer),
            None => placed.call.carry_out(&mut self.model, &mut buffer),
        };
        tally.add(&placed.call, &result, self.values.len());
        self.follow(&placed.call, &result);
        same_told(&told(&result), &outcome.told())?;
        same_buffer(&buffer, outcome.buffer())?;
        let refused_open = is_refused_open(&placed.call, &result);
        self.check_processor(refused_open, &result, outcome)?;
        if whole.is_some() && result.is_ok() && self.model != Processor::Idle {
            tally.compared += self.check_cutting(outcome)?;
        }
        if !refused_open {
            self.now = outcome.processor().to_vec();
        }
        Ok(())
    }

    /// The call on a trace of which the machine is known: a reply that is due is one of that
    /// machine's, so the model need not run the rules at each take.
    fn carry_out_on(
        &mut self,
        machine: &Machine,
        call: &Call,
        buffer: &mut [u8],
    ) -> Result<Answer, Refusal> {
        let Call::Take { flags, values, .. } = call else {
            if call.lent() >= CLOSE_BYTES {
                self.model.hand_out();
            }
            return call.carry_out(&mut self.model, buffer);
        };
        self.model.join(flags, values, buffer.len())?;
        let replies = &machine.replies;
        let due_by = |ticks| replies.partition_point(|reply| due_at(reply.q) <= ticks as i64);
        let before = self.values.len();
        let due = &replies[due_by(before)..due_by(before + flags.len())];
        for (reply, place) in due.iter().zip(buffer.chunks_mut(RECORD_BYTES)) {
            place.copy_from_slice(&record(reply));
        }
        let written = due.len();
        Ok(Answer::Taken { written })
    }

    /// Keep settings and values of the open sweep.
    fn follow(&mut self, call: &Call, result: &Result<Answer, Refusal>) {
        match (call, result) {
            (Call::Open { mode, azimuth }, Ok(_)) => {
                self.settings = (*mode, *azimuth);
                self.values.clear();
            }
            (Call::Take { values, .. }, Ok(_)) => self.values.extend_from_slice(values),
            (Call::Close { .. }, Ok(_)) => self.values.clear(),
            (_, Err(_)) => {}
        }
    }

    /// A refused take or close gives back the processor that went in; a refused opening and an
    /// accepted close give the idle one; else the fields are compared that the model can tell.
    fn check_processor(
        &self,
        refused_open: bool,
        result: &Result<Answer, Refusal>,
        outcome: &Outcome,
    ) -> Result<(), String> {
        let shown = outcome.processor();
        match result {
            Err(_) if refused_open => same_processor("at the start", &self.idle, shown),
            Err(_) => same_processor("before the refused call", &self.now, shown),
            Ok(Answer::Closed { .. }) => same_processor("at the start", &self.idle, shown),
            Ok(_) => {
                let (mode, azimuth) = self.settings;
                let taken = self.values.len() as u64;
                let expected = [u64::from(mode), u64::from(azimuth), taken];
                if outcome.settings() != expected {
                    let found = outcome.settings();
                    return Err(format!(
                        "mode, azimuth and taken are {found:?}, not {expected:?}"
                    ));
                }
                same_recent(&recent(&self.values), outcome.recent())
            }
        }
    }

    /// The processor after so many ticks is the same in each cutting. Counts 1 if it was compared.
    fn check_cutting(&mut self, outcome: &Outcome) -> Result<u64, String> {
        let taken = self.values.len();
        if self.after.len() <= taken {
            self.after.resize(taken + 1, None);
        }
        let shown = outcome.processor();
        let Some(known) = &self.after[taken] else {
            self.after[taken] = Some(shown.to_vec());
            return Ok(0);
        };
        let when = format!("after the same {taken} ticks in another cutting");
        same_processor(&when, known, shown).map(|()| 1)
    }

    /// What is to hold at the end of a list: no sweep is open.
    pub fn end_list(&mut self) {
        assert_eq!(self.model, Processor::Idle, "a list left its sweep open");
        self.after.clear();
        self.now.clone_from(&self.idle);
    }
}

/// The next call goes on with the processor that there was before it.
pub fn is_refused_open(call: &Call, result: &Result<Answer, Refusal>) -> bool {
    matches!(call, Call::Open { .. }) && result.is_err()
}

/// The values of the last 256 ticks; samples before the trace count as zero.
fn recent(values: &[u8]) -> Vec<u8> {
    let last = &values[values.len().saturating_sub(256)..];
    let mut recent = vec![0; 256 - last.len()];
    recent.extend_from_slice(last);
    recent
}

fn same_told(expected: &Told, found: &Told) -> Result<(), String> {
    let pairs = expected.iter().zip(found).zip(TOLD);
    for ((expected, found), name) in pairs {
        if expected != found {
            return Err(format!("{name} is {found}, not {expected}"));
        }
    }
    Ok(())
}

/// The first place where two runs of bytes differ, which have the same length.
fn first_difference(expected: &[u8], found: &[u8]) -> Option<usize> {
    assert_eq!(expected.len(), found.len(), "runs of different lengths");
    if expected == found {
        return None;
    }
    (0..expected.len()).find(|&place| expected[place] != found[place])
}

fn same_buffer(expected: &[u8], found: &[u8]) -> Result<(), String> {
    match first_difference(expected, found) {
        None => Ok(()),
        Some(at) => Err(format!(
            "byte {at} of the lent buffer's {} is {:02x}, not {:02x}",
            found.len(),
            found[at],
            expected[at]
        )),
    }
}

fn same_recent(expected: &[u8], found: &[u8]) -> Result<(), String> {
    match first_difference(expected, found) {
        None => Ok(()),
        Some(at) => Err(format!(
            "recent value {at} is {}, not {}",
            found[at], expected[at]
        )),
    }
}

fn same_processor(when: &str, expected: &[u8], found: &[u8]) -> Result<(), String> {
    match first_difference(expected, found) {
        None => Ok(()),
        Some(at) => Err(format!(
            "the processor is not that {when}: {} differs",
            field_at(at)
        )),
    }
}

#[cfg(test)]
mod tests {
    use super::Session;
    use crate::lists::list;

    #[test]
    fn on_a_known_machine_calls_give_what_they_give_take_by_take() {
        let is_short = |number: &u64| list(7, *number).calls.len() < 2_500;
        let mut takes = 0;
        for number in (0..200).filter(is_short) {
            let list = list(7, number);
            let Some(machine) = &list.whole else {
                continue;
            };
            let (mut known, mut plain) = (Session::new(&[]), Session::new(&[]));
            for placed in &list.calls {
                let mut buffers = [(); 2].map(|()| vec![placed.fill; placed.call.lent()]);
                let result = known.carry_out_on(machine, &placed.call, &mut buffers[0]);
                known.follow(&placed.call, &result);
                let expected = placed.call.carry_out(&mut plain.model, &mut buffers[1]);
                assert_eq!(result, expected);
                assert!(buffers[0] == buffers[1], "list {number}: buffers differ");
                takes += usize::from(result.is_ok());
            }
        }
        assert!(takes > 10_000, "only {takes} calls were compared");
    }
}
