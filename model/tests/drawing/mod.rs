//! Traces and edges drawn by hand for the tests.
#![allow(dead_code)] // each test file uses its own part

use model::edges::{Edge, Kind};
use model::samples::{Tick, Trace, A, M, N, P};
use std::ops::RangeInclusive;

/// A trace in the making: M and one value on every tick, the other flags 0 until drawn.
pub struct Drawing {
    flags: Vec<u8>,
    values: Vec<u8>,
}

impl Drawing {
    pub fn new(ticks: usize, value: u8) -> Drawing {
        Drawing {
            flags: vec![M; ticks],
            values: vec![value; ticks],
        }
    }

    pub fn a(self, ticks: RangeInclusive<usize>) -> Drawing {
        self.draw(A, ticks)
    }

    pub fn p(self, tick: usize) -> Drawing {
        self.draw(P, tick..=tick)
    }

    pub fn n(self, ticks: RangeInclusive<usize>) -> Drawing {
        self.draw(N, ticks)
    }

    /// Pulses of two ticks at these ticks.
    pub fn pulses(self, starts: &[usize]) -> Drawing {
        starts
            .iter()
            .fold(self, |drawing, &start| drawing.a(start..=start + 1))
    }

    fn draw(mut self, flag: u8, ticks: RangeInclusive<usize>) -> Drawing {
        for tick in ticks {
            self.flags[tick] |= flag;
        }
        self
    }

    pub fn trace(&self) -> Trace {
        Trace::new(&self.flags, &self.values)
    }
}

/// The ticks of the trace's edges.
pub fn edge_ticks(trace: &Trace) -> Vec<Tick> {
    let edges = model::edges::edges(trace);
    edges.iter().map(|edge| edge.tick).collect()
}

/// An edge with M.
pub fn edge(tick: Tick, value: u8) -> Edge {
    Edge {
        tick,
        kind: Kind::Actual,
        m: true,
        value,
    }
}

/// An edge without M.
pub fn edge_without_m(tick: Tick, value: u8) -> Edge {
    Edge {
        m: false,
        ..edge(tick, value)
    }
}

/// Edges with M and value 80.
pub fn edges_at(ticks: &[Tick]) -> Vec<Edge> {
    ticks.iter().map(|&tick| edge(tick, 80)).collect()
}
