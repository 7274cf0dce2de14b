//! What the walk and its leaf ask of the candidates, made once per drawing.
use super::drawing::{Drawing, EDGE_ROOM};
use super::flat::six_volumes;
use super::loops::Loop;
use super::sets::Members;
use crate::numbers::MOST_CANDIDATES;

pub struct Tables {
    pub edges: usize,
    /// The candidates on each edge, and those of them whose normal form runs it upwards.
    pub on: [u64; EDGE_ROOM],
    pub up: [u64; EDGE_ROOM],
    /// Each candidate's share of six volumes.
    pub six: [i64; MOST_CANDIDATES],
}

impl Tables {
    pub fn new(d: &Drawing, candidates: &[Loop]) -> Tables {
        let mut tables = Tables { edges: d.edges, on: [0; EDGE_ROOM], up: [0; EDGE_ROOM], six: [0; MOST_CANDIDATES] };
        for (c, candidate) in candidates.iter().enumerate() {
            tables.six[c] = six_volumes(d, candidate.ring());
            for e in Members(candidate.edge_set) {
                tables.on[e] |= 1 << c;
                tables.up[e] |= (runs_up(candidate.ring(), d.ends[e]) as u64) << c;
            }
        }
        tables
    }
}

/// Does a ring that has this edge run it from a to b?
#[inline]
fn runs_up(ring: &[u8], (a, b): (u8, u8)) -> bool {
    let k = ring.iter().position(|v| *v == a).unwrap_or(0);
    ring[if k + 1 == ring.len() { 0 } else { k + 1 }] == b
}
