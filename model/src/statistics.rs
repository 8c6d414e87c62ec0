//! How often each outcome occurs over generated sweeps, to show that the generator meets them all.

use crate::brackets::brackets;
use crate::edges::{edges, Edge, Kind};
use crate::generate::calls::calls;
use crate::generate::damage::damaged;
use crate::generate::input::input;
use crate::generate::random::Random;
use crate::generate::{self, length, short_length};
use crate::machine::{machine_on, Machine};
use crate::replies::{Reply, Settling};
use crate::samples::{Tick, Trace};
use crate::survey::survey;
use crate::sweep::{due_at, Processor};

/// The six totals, in order.
const TOTALS: [&str; 6] = [
    "found", "replies", "sidelobe", "garbled", "lost", "phantoms",
];

/// Something that a reply may be.
type Property = fn(&Reply) -> bool;

/// Named counts in the order in which they were first named.
#[derive(Clone, Debug, Default)]
pub struct Statistics {
    counts: Vec<(String, u64)>,
}

impl Statistics {
    /// Every name with its count.
    pub fn counts(&self) -> &[(String, u64)] {
        &self.counts
    }

    fn entry(&mut self, name: &str) -> &mut u64 {
        let known = self.counts.iter().position(|(other, _)| other == name);
        let place = known.unwrap_or_else(|| {
            self.counts.push((name.to_string(), 0));
            self.counts.len() - 1
        });
        &mut self.counts[place].1
    }

    pub fn add(&mut self, name: &str, amount: usize) {
        *self.entry(name) += amount as u64;
    }

    fn raise(&mut self, name: &str, value: u64) {
        let entry = self.entry(name);
        *entry = value.max(*entry);
    }

    /// Count what the rules give for one trace.
    fn add_trace(&mut self, trace: &Trace) {
        let edges = edges(trace);
        let machine = machine_on(&edges);
        self.add("sweeps", 1);
        self.raise("longest trace in ticks", trace.ticks() as u64);
        for (name, total) in TOTALS.iter().zip(machine.totals.in_order()) {
            self.add(name, usize::from(total));
            self.raise(&format!("largest {name}"), u64::from(total));
        }
        self.add_edges(&edges);
        self.add_replies(&machine.replies);
        self.add_left(&machine, trace.ticks());
    }

    fn add_edges(&mut self, edges: &[Edge]) {
        for (name, kind) in [
            ("actual edges", Kind::Actual),
            ("pseudo edges", Kind::Pseudo),
            ("extra edges", Kind::Extra),
        ] {
            self.add(name, edges.iter().filter(|edge| edge.kind == kind).count());
        }
        let brackets = brackets(edges);
        for spacing in [167, 168, 169] {
            let wide = brackets
                .iter()
                .filter(|bracket| bracket.f2.tick - bracket.f1.tick == spacing);
            self.add(&format!("brackets at spacing {spacing}"), wide.count());
        }
    }

    fn add_replies(&mut self, replies: &[Reply]) {
        let properties: [(&str, Property); 7] = [
            ("military", |reply| reply.military),
            ("reference F2", |reply| reply.reference_is_f2),
            ("reference without M", |reply| reply.reference_lacks_m),
            ("potential phantom kept", |reply| reply.potential_phantom),
            ("N = 1", |reply| reply.n == 1),
            ("N = 16", |reply| reply.n == 16),
            ("SPI code bit set", |reply| reply.settled[17].code()),
        ];
        for (name, holds) in properties {
            self.add(name, replies.iter().filter(|reply| holds(reply)).count());
        }
        self.add_settlings(replies);
    }

    fn add_settlings(&mut self, replies: &[Reply]) {
        for (name, settling) in [
            ("settled by no M", Settling::NoM),
            ("settled by own alone", Settling::OwnAlone),
            ("settled by own and other", Settling::OwnAndOther),
            ("settled by other alone", Settling::OtherAlone),
            ("settled by failing all", Settling::FailsAll),
        ] {
            let settled = replies.iter().flat_map(|reply| reply.settled);
            self.add(name, settled.filter(|&other| other == settling).count());
        }
    }

    /// Count the replies that a close after these ticks hands out.
    fn add_left(&mut self, machine: &Machine, ticks: Tick) {
        let left = machine
            .replies
            .iter()
            .filter(|reply| due_at(reply.q) > ticks);
        let left = left.count();
        self.add("closes with eight replies", usize::from(left == 8));
        self.raise("most replies at a close", left as u64);
    }

    fn add_refusal(&mut self, origin: &str, number: u8) {
        self.add(&format!("refusal {number} from {origin}"), 1);
    }

    /// Name the refusals in order, each with none yet.
    fn name_refusals(&mut self) {
        for number in [1, 2, 3, 6, 8, 9, 10] {
            self.add(&format!("refusal {number} from damaged inputs"), 0);
        }
        for number in 1..=8 {
            self.add(&format!("refusal {number} from direct calls"), 0);
        }
    }
}

/// The statistics of some mixed sweeps, with one damaged input and one list of calls for every
/// ten sweeps.
pub fn statistics(seed: u64, sweeps: u64) -> Statistics {
    let mut random = Random::new(seed);
    let mut statistics = Statistics::default();
    for sweep in 0..sweeps {
        let ticks = length(&mut random);
        statistics.add_trace(&generate::trace(generate::Kind::Mixed, ticks, &mut random));
        if sweep == 0 {
            statistics.name_refusals();
        }
        if sweep % 10 == 0 {
            count_damaged_input(&mut statistics, &mut random);
            count_calls(&mut statistics, &mut random);
        }
    }
    statistics
}

/// Count the refusal of one damaged input, read back from what the survey prints.
fn count_damaged_input(statistics: &mut Statistics, random: &mut Random) {
    let whole = input(generate::Kind::Mixed, 2, short_length, random);
    let printed = survey(&damaged(&whole, random));
    let last = printed.lines().last().unwrap_or_default();
    if let Some(number) = last.strip_prefix("1f") {
        let number = u8::from_str_radix(number, 16).expect("a refusal line ends in its number");
        statistics.add_refusal("damaged inputs", number);
    } else {
        statistics.add("damaged inputs without refusal", 1);
    }
}

/// Count the refusals of one list of direct calls.
fn count_calls(statistics: &mut Statistics, random: &mut Random) {
    let mut processor = Processor::Idle;
    for call in calls(random) {
        let mut buffer = vec![0; call.lent()];
        if let Err(refusal) = call.carry_out(&mut processor, &mut buffer) {
            statistics.add_refusal("direct calls", refusal.number());
        }
    }
}
