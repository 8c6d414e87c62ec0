//! Edges: leads and trails tick by tick, then runs, then the edges of each run.

use crate::samples::{Tick, Trace};

/// Which of the three rules gives an edge.
#[derive(Clone, Copy, Debug, PartialEq, Eq)]
pub enum Kind {
    Actual,
    Pseudo,
    Extra,
}

/// An edge, with its M and its monopulse value.
#[derive(Clone, Copy, Debug, PartialEq, Eq)]
pub struct Edge {
    pub tick: Tick,
    pub kind: Kind,
    pub m: bool,
    pub value: u8,
}

/// What stands at one tick.
#[derive(Clone, Copy, Debug, PartialEq, Eq)]
pub struct Mark {
    pub lead: bool,
    pub trail: bool,
}

/// How a run ends.
#[derive(Clone, Copy, Debug, PartialEq, Eq)]
pub enum End {
    Trail,
    Lead,
}

/// A run from a lead s to the next trail or lead, e.
#[derive(Clone, Copy, Debug, PartialEq, Eq)]
pub struct Run {
    pub s: Tick,
    pub e: Tick,
    pub end: End,
}

/// "Lead at t: A(t)=1, and either A(t−1)=0, or A(t−2)=A(t−1)=1, P(t−1)=0, P(t)=1."
fn is_lead(trace: &Trace, t: Tick) -> bool {
    let after_low = !trace.a(t - 1);
    let rises_again = trace.a(t - 2) && trace.a(t - 1) && !trace.p(t - 1) && trace.p(t);
    trace.a(t) && (after_low || rises_again)
}

/// "Trail at t, met while high: A(t)=0; or N(t−1)=0, N(t)=1 and one of: A(t+1)=0; N(t+1)=1 and
/// A(t+2)=0; N(t+1)=N(t+2)=1; N(t+1)=1 and P(t+2)=1."
fn is_trail(trace: &Trace, t: Tick, high: bool) -> bool {
    let falls = !trace.n(t - 1) && trace.n(t);
    let goes_on_falling = !trace.a(t + 1)
        || (trace.n(t + 1) && !trace.a(t + 2))
        || (trace.n(t + 1) && trace.n(t + 2))
        || (trace.n(t + 1) && trace.p(t + 2));
    high && (!trace.a(t) || (falls && goes_on_falling))
}

/// "Video goes high at a lead. High video goes low at a trail, unless that tick is a lead."
/// A pulse that lasts to the end of a trace of n ticks has its trail at tick n, so there is a
/// mark for each tick from 0 to n.
pub fn marks(trace: &Trace) -> Vec<Mark> {
    let mut high = false;
    let mut marks = Vec::new();
    for t in 0..=trace.ticks() {
        let lead = is_lead(trace, t);
        let trail = is_trail(trace, t, high);
        marks.push(Mark { lead, trail });
        if lead {
            high = true;
        } else if trail {
            high = false;
        }
    }
    marks
}

/// "A run goes from a lead s to the next trail or lead, e." No tick of a valid trace is both.
pub fn runs(marks: &[Mark]) -> Vec<Run> {
    let leads = (0..marks.len()).filter(|&s| marks[s].lead);
    leads.map(|s| run_from(marks, s)).collect()
}

/// The run from the lead at s. A sample after the trace has A = 0, so every run ends.
fn run_from(marks: &[Mark], s: usize) -> Run {
    let e = (s + 1..marks.len())
        .find(|&t| marks[t].trail || marks[t].lead)
        .expect("a run ends at the end of the trace at the latest");
    let end = if marks[e].trail {
        End::Trail
    } else {
        End::Lead
    };
    Run {
        s: s as Tick,
        e: e as Tick,
        end,
    }
}

/// "An actual edge is a lead with no trail at the next tick."
fn actual_edge(marks: &[Mark], run: &Run) -> Option<Tick> {
    let next = run.s as usize + 1;
    (!marks[next].trail).then_some(run.s)
}

/// "If e−s > 5: a trail at e gives .. extra edges at s+4j (j = 1, 2, ..) up to e−8; a lead at e
/// gives extra edges at s+4j up to e−4."
fn extra_edges(run: &Run) -> Vec<Tick> {
    let last = match run.end {
        End::Trail => run.e - 8,
        End::Lead => run.e - 4,
    };
    if run.e - run.s > 5 {
        (1..)
            .map(|j| run.s + 4 * j)
            .take_while(|&t| t <= last)
            .collect()
    } else {
        Vec::new()
    }
}

/// "If e−s > 5: a trail at e gives a pseudo edge at e−4."
fn pseudo_edge(run: &Run) -> Option<Tick> {
    (run.e - run.s > 5 && run.end == End::Trail).then_some(run.e - 4)
}

/// "M and value of an edge at t are those of tick t+1."
fn edge(trace: &Trace, tick: Tick, kind: Kind) -> Edge {
    Edge {
        tick,
        kind,
        m: trace.m(tick + 1),
        value: trace.value(tick + 1),
    }
}

/// The edges of the trace by rising tick: those of each run in turn.
pub fn edges(trace: &Trace) -> Vec<Edge> {
    let mut edges = Vec::new();
    let marks = marks(trace);
    for run in runs(&marks) {
        let actual = actual_edge(&marks, &run).map(|t| edge(trace, t, Kind::Actual));
        let extra = extra_edges(&run);
        let pseudo = pseudo_edge(&run).map(|t| edge(trace, t, Kind::Pseudo));
        edges.extend(actual);
        edges.extend(extra.iter().map(|&t| edge(trace, t, Kind::Extra)));
        edges.extend(pseudo);
    }
    edges
}
