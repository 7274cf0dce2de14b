//! Families that grow step by step, to see how the cost of a conversion grows: in prisms the vertices, in chains of boxes the
//! loops, between points that are all joined the candidates, in chains of octahedra the assumptions.
use super::ambiguous::general;
use super::bodies::{box_chain, octahedron_chain, prism};
use super::flat::convex;
use super::maker::complete;
use crate::convert::Answer;
use crate::drawing::Drawing;
use crate::fast;
use crate::numbers::*;
use crate::source::Source;

/// The members of each family in turn, with names as `boxes_7`.
pub fn growing() -> Vec<(String, Drawing)> {
    [
        family("prism", [3, 6, 9, 12], |corners| prism(&convex(corners), 10, [0, 0])),
        family("boxes", [1, 3, 5, 7], |count| box_chain(&vec![10; count], 10, 10)),
        family("joined", [5, 6, 7, 8], |points| complete(&general(points))),
        family("octahedra", [1, 2, 3, 5], |count| octahedron_chain(count as i64)),
    ]
    .concat()
}

fn family(name: &str, sizes: [usize; 4], member: impl Fn(usize) -> Drawing) -> Vec<(String, Drawing)> {
    sizes.map(|size| (format!("{name}_{size}"), member(size))).to_vec()
}

/// Vertices, edges, loops, candidates and assumptions; of a drawing that is refused, the first two only.
pub fn size(d: &Drawing) -> Vec<usize> {
    let (xyz, ends) = d.lists();
    let drawn = [d.vertices.len(), d.edges.len()];
    match fast::convert(Source::Lists(&xyz, &ends), MOST_WORK, &mut [0; FACE_ROOM], &mut [0; SOLID_ROOM]) {
        Answer::Refused(_) => drawn.to_vec(),
        Answer::Ended { loops, candidates, work, .. } | Answer::Report { loops, candidates, work, .. } => {
            [&drawn[..], &[loops as usize, candidates as usize, work as usize]].concat()
        }
    }
}
