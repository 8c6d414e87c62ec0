//! Brackets: two edges that may be the framing pulses F1 and F2 of a reply.

use crate::edges::Edge;
use crate::samples::Tick;

/// A bracket, by its two framing pulses.
#[derive(Clone, Copy, Debug, PartialEq, Eq)]
pub struct Bracket {
    pub f1: Edge,
    pub f2: Edge,
}

/// The edge at a tick, if one stands there. The edges are given by rising tick.
fn edge_at(edges: &[Edge], tick: Tick) -> Option<Edge> {
    let place = edges.binary_search_by_key(&tick, |edge| edge.tick).ok()?;
    Some(edges[place])
}

/// "A bracket stands at edge u if an edge stands at u+168; else at u+167; else at u+169. The
/// first found is its F2; u is its F1."
pub fn bracket_at(edges: &[Edge], f1: Edge) -> Option<Bracket> {
    let f2 = [168, 167, 169]
        .into_iter()
        .find_map(|spacing| edge_at(edges, f1.tick + spacing))?;
    Some(Bracket { f1, f2 })
}

/// Every bracket, by rising F1.
pub fn brackets(edges: &[Edge]) -> Vec<Bracket> {
    let found = edges.iter().filter_map(|&u| bracket_at(edges, u));
    found.collect()
}
