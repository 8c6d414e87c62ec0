//! A reply: its positions, how each is settled, and its reference.

use crate::brackets::Bracket;
use crate::edges::Edge;
use crate::samples::Tick;

/// "Position k (0 to 14, and 17)".
pub const POSITIONS: [usize; 16] = [0, 1, 2, 3, 4, 5, 6, 7, 8, 9, 10, 11, 12, 13, 14, 17];

/// How a position of a reply is settled.
#[derive(Clone, Copy, Debug, PartialEq, Eq)]
pub enum Settling {
    /// "A position with no edge is 0, 1."
    NoEdge,
    /// "Where F2 is the reference, position 14 is settled when the reply opens, as code 1 with
    /// F2's M for confidence, and not averaged."
    Reference { m: bool },
    /// "no M: code 0, confidence 0."
    NoM,
    /// "agrees with its own, with no other: 1, 1."
    OwnAlone,
    /// "With another too: 1, 0."
    OwnAndOther,
    /// "fails its own, agrees with another: 0, 0."
    OtherAlone,
    /// "Fails all: 1, 0."
    FailsAll,
}

impl Settling {
    /// The code bit.
    pub fn code(self) -> bool {
        match self {
            Settling::NoEdge | Settling::NoM | Settling::OtherAlone => false,
            Settling::Reference { .. } => true,
            Settling::OwnAlone | Settling::OwnAndOther | Settling::FailsAll => true,
        }
    }

    /// The confidence bit.
    pub fn confidence(self) -> bool {
        match self {
            Settling::NoEdge | Settling::OwnAlone => true,
            Settling::Reference { m } => m,
            Settling::NoM => false,
            Settling::OwnAndOther | Settling::OtherAlone | Settling::FailsAll => false,
        }
    }
}

/// A reply with F1 at q.
#[derive(Clone, Copy, Debug, PartialEq)]
pub struct Reply {
    pub q: Tick,
    pub reference: f64,
    /// "N counts the reference pulse and each averaged value, so 1 to 16".
    pub n: u8,
    /// "S is the sum of those N values."
    pub s: u16,
    pub settled: [Settling; 18],
    pub reference_is_f2: bool,
    pub reference_lacks_m: bool,
    pub potential_phantom: bool,
    pub military: bool,
}

impl Reply {
    /// "A reply opens. Its reference is F1's value, or F2's if an open reply covers F1. It is a
    /// potential phantom if an open reply covers u at position 1 to 14. It is military if an
    /// open q has u−q from 203 to 205."
    pub fn opening(bracket: &Bracket, open: &[Reply]) -> Reply {
        let u = bracket.f1.tick;
        let reference_is_f2 = open.iter().any(|reply| reply.covers(u));
        let pulse = if reference_is_f2 {
            bracket.f2
        } else {
            bracket.f1
        };
        Reply {
            q: u,
            reference: f64::from(pulse.value),
            n: 1,
            s: u16::from(pulse.value),
            settled: settled_at_opening(bracket, reference_is_f2),
            reference_is_f2,
            reference_lacks_m: !pulse.m,
            potential_phantom: open
                .iter()
                .any(|reply| matches!(reply.position(u), Some(1..=14))),
            military: open
                .iter()
                .any(|reply| (203..=205).contains(&(u - reply.q))),
        }
    }

    /// "Position k (0 to 14, and 17) of a reply with F1 at q covers ticks q+12k−1 to q+12k+1."
    pub fn position(&self, tick: Tick) -> Option<usize> {
        POSITIONS.into_iter().find(|&k| {
            let middle = self.q + 12 * k as Tick;
            (middle - 1..=middle + 1).contains(&tick)
        })
    }

    /// Whether any position covers the tick.
    pub fn covers(&self, tick: Tick) -> bool {
        self.position(tick).is_some()
    }

    /// "A value agrees with a reference if they differ by at most 8."
    fn agrees(&self, value: u8) -> bool {
        (f64::from(value) - self.reference).abs() <= 8.0
    }

    /// "Then the edge goes to each open reply that covers u at a position 1 to 14 or 17 not yet
    /// settled, and settles it." The others are as they were before this edge.
    pub fn take_edge(&mut self, edge: &Edge, others: &[Reply]) {
        let Some(k @ (1..=14 | 17)) = self.position(edge.tick) else {
            return;
        };
        if self.settled[k] != Settling::NoEdge {
            return;
        }
        self.settled[k] = self.settling(edge, others);
        if self.settled[k] == Settling::OwnAlone {
            self.average(edge.value);
        }
    }

    /// The five ways to settle a position by an edge. "'Others' are other open replies that
    /// cover u."
    fn settling(&self, edge: &Edge, others: &[Reply]) -> Settling {
        let own = self.agrees(edge.value);
        let other = others
            .iter()
            .any(|other| other.covers(edge.tick) && other.agrees(edge.value));
        match (edge.m, own, other) {
            (false, _, _) => Settling::NoM,
            (true, true, false) => Settling::OwnAlone,
            (true, true, true) => Settling::OwnAndOther,
            (true, false, true) => Settling::OtherAlone,
            (true, false, false) => Settling::FailsAll,
        }
    }

    /// "At 1, 1 the reference becomes (reference + value) × 0.5 in binary64, one rounding each."
    fn average(&mut self, value: u8) {
        self.reference = (self.reference + f64::from(value)) * 0.5;
        self.n += 1;
        self.s += u16::from(value);
    }
}

/// The positions when the reply opens: none is settled, but 14 where F2 is the reference.
fn settled_at_opening(bracket: &Bracket, reference_is_f2: bool) -> [Settling; 18] {
    let mut settled = [Settling::NoEdge; 18];
    if reference_is_f2 {
        settled[14] = Settling::Reference { m: bracket.f2.m };
    }
    settled
}
