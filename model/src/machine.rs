//! The plain machine: from edges to replies and totals.

use crate::brackets::{bracket_at, Bracket};
use crate::edges::{edges, Edge};
use crate::replies::Reply;
use crate::samples::{Tick, Trace};

/// "Limits: .. four open replies."
pub const OPEN_REPLIES: usize = 4;

/// "the totals found, replies (opened and not removed), sidelobe, garbled, lost, phantoms"
#[derive(Clone, Copy, Debug, Default, PartialEq, Eq)]
pub struct Totals {
    pub found: u16,
    pub replies: u16,
    pub sidelobe: u16,
    pub garbled: u16,
    pub lost: u16,
    pub phantoms: u16,
}

impl Totals {
    /// The six totals in document 01's order.
    pub fn in_order(&self) -> [u16; 6] {
        [
            self.found,
            self.replies,
            self.sidelobe,
            self.garbled,
            self.lost,
            self.phantoms,
        ]
    }
}

/// The machine: the replies opened and not removed, in order of F1, and the totals.
#[derive(Clone, Debug, Default, PartialEq)]
pub struct Machine {
    pub replies: Vec<Reply>,
    pub totals: Totals,
}

/// The machine after all edges of the trace.
pub fn machine_of(trace: &Trace) -> Machine {
    machine_on(&edges(trace))
}

/// "The machine takes the edges by rising tick u."
pub fn machine_on(edges: &[Edge]) -> Machine {
    let mut machine = Machine::default();
    for edge in edges {
        if let Some(bracket) = bracket_at(edges, *edge) {
            machine.totals.found += 1;
            machine.try_bracket(&bracket);
        }
        machine.give_edge(edge);
    }
    machine.totals.replies = machine.replies.len() as u16;
    machine
}

impl Machine {
    /// "Replies with q+205 < u are no longer open." The open ones are the last in order of F1.
    fn first_open(&self, u: Tick) -> usize {
        self.replies.partition_point(|reply| reply.q + 205 < u)
    }

    /// "If a bracket stands at u, 'found' rises, and these are tried in order". Done ends the
    /// five steps only; the edge still goes to the open replies.
    fn try_bracket(&mut self, bracket: &Bracket) {
        let u = bracket.f1.tick;
        if is_sidelobe(bracket) {
            self.totals.sidelobe += 1;
            return;
        }
        self.remove_phantoms(u);
        let open = &self.replies[self.first_open(u)..];
        if is_garbled(bracket, open) {
            self.totals.garbled += 1;
        } else if open.len() == OPEN_REPLIES {
            self.totals.lost += 1;
        } else {
            let reply = Reply::opening(bracket, open);
            self.replies.push(reply);
        }
    }

    /// "Each open potential phantom q with u−q within 2 of 12k, k 1 to 14, is removed: one
    /// phantom each."
    fn remove_phantoms(&mut self, u: Tick) {
        let open = self.replies.split_off(self.first_open(u));
        let (removed, kept): (Vec<Reply>, Vec<Reply>) = open
            .into_iter()
            .partition(|reply| reply.potential_phantom && is_near_position(u - reply.q));
        self.totals.phantoms += removed.len() as u16;
        self.replies.extend(kept);
    }

    /// "Then the edge goes to each open reply .. All comparisons use the references from before
    /// this edge, a newly opened reply's included."
    fn give_edge(&mut self, edge: &Edge) {
        let first_open = self.first_open(edge.tick);
        let before = self.replies[first_open..].to_vec();
        for (place, reply) in self.replies[first_open..].iter_mut().enumerate() {
            let mut others = before.clone();
            others.remove(place);
            reply.take_edge(edge, &others);
        }
    }
}

/// "Neither F1 nor F2 has M: sidelobe".
fn is_sidelobe(bracket: &Bracket) -> bool {
    !bracket.f1.m && !bracket.f2.m
}

/// "u−q within 2 of 12k, k 1 to 14".
fn is_near_position(distance: Tick) -> bool {
    (1..=14).any(|k| (distance - 12 * k).abs() <= 2)
}

/// "No framing pulse both has M and is uncovered by every open reply: garbled".
fn is_garbled(bracket: &Bracket, open: &[Reply]) -> bool {
    let uncovered = |tick: Tick| open.iter().all(|reply| !reply.covers(tick));
    let sound = |pulse: &Edge| pulse.m && uncovered(pulse.tick);
    !sound(&bracket.f1) && !sound(&bracket.f2)
}
