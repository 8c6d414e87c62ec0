//! What a run has met, and what it must have met.

use model::generate::calls::{Answer, Call};
use model::refusals::Refusal;
use model::sweep::{take_bytes, CLOSE_BYTES, PIECE_TICKS, SWEEP_TICKS};

/// From so many calls on a run must have met everything that is demanded.
const DEMANDED_FROM: u64 = 100_000;

#[derive(Default)]
pub struct Tally {
    pub lists: u64,
    pub calls: u64,
    pub ticks: u64,
    pub records: u64,
    /// Processors that were compared with another cutting's after the same ticks.
    pub compared: u64,
    refusals: [u64; 8],
    reopened: u64,
    full_pieces: u64,
    full_sweeps: u64,
    eights: u64,
    exact_takes: u64,
    exact_closes: u64,
}

impl Tally {
    /// Count a call with what the model answers. So many ticks of an open sweep came before it.
    pub fn add(&mut self, call: &Call, result: &Result<Answer, Refusal>, taken: usize) {
        self.calls += 1;
        match result {
            Err(refusal) => self.refusals[usize::from(refusal.number()) - 1] += 1,
            Ok(Answer::Opened) => self.reopened += u64::from(taken > 0),
            Ok(Answer::Taken { written }) => {
                self.records += *written as u64;
                let Call::Take { flags, lent, .. } = call else {
                    return;
                };
                self.ticks += flags.len() as u64;
                self.full_pieces += u64::from(flags.len() == PIECE_TICKS);
                self.exact_takes += u64::from(*lent > 0 && *lent == take_bytes(flags.len()));
            }
            Ok(Answer::Closed { written, .. }) => {
                self.records += *written as u64;
                self.full_sweeps += u64::from(taken == SWEEP_TICKS);
                self.eights += u64::from(*written == 8);
                self.exact_closes += u64::from(call.lent() == CLOSE_BYTES);
            }
        }
    }

    /// Everything that a run must meet, with how often it did.
    fn demanded(&self) -> Vec<(String, u64)> {
        let refusals = self.refusals.iter().enumerate();
        let mut demanded: Vec<(String, u64)> = refusals
            .map(|(place, count)| (format!("refusal {}", place + 1), *count))
            .collect();
        for (name, count) in [
            ("openings after some ticks of a sweep", self.reopened),
            ("pieces of 4096 ticks", self.full_pieces),
            ("closed sweeps of 32768 ticks", self.full_sweeps),
            ("closes with eight records", self.eights),
            ("takes with just the bytes needed", self.exact_takes),
            ("closes with just 144 bytes", self.exact_closes),
            ("processors compared between cuttings", self.compared),
        ] {
            demanded.push((name.to_string(), count));
        }
        demanded
    }

    /// Print the counts. The demands that were met, and that were not.
    pub fn report(&self) -> (u64, u64) {
        println!(
            "{} lists, {} calls, {} ticks, {} records",
            self.lists, self.calls, self.ticks, self.records
        );
        let is_long = self.calls >= DEMANDED_FROM;
        let (mut met, mut missed) = (0, 0);
        for (name, count) in self.demanded() {
            let lacks = is_long && count == 0;
            println!("{name}: {count}{}", if lacks { ", NOT MET" } else { "" });
            missed += u64::from(lacks);
            met += u64::from(count > 0);
        }
        if !is_long {
            println!("nothing is demanded of a run of under {DEMANDED_FROM} calls");
        }
        (met, missed)
    }
}
