//! Refusal 13: which of two edges that meet offends.
use crate::common::*;
use nibgravel_reference::drawing::Drawing;
use nibgravel_reference::gen::known::tetrahedron;
use nibgravel_reference::gen::maker::ordered;
use nibgravel_reference::numbers::EDGE_MEETS;

/// The tetrahedron with a fifth vertex and more edges.
fn with_fifth(place: [i64; 3], more: &[(usize, usize)]) -> Drawing {
    let d = tetrahedron();
    ordered([&d.vertices[..], &[place]].concat(), d.edges.into_iter().chain(more.iter().copied()))
}

fn number(d: &Drawing, edge: (usize, usize)) -> u32 {
    d.edges.iter().position(|e| *e == edge).unwrap() as u32
}

#[test]
fn at_a_t_only_the_edge_that_is_hit_offends() {
    assert_eq!(refusal(converted(&with_fifth([3, 0, 0], &[(3, 4)]), 0).answer), (EDGE_MEETS, 0));
    // The edge that is hit has the higher number: vertex 0 is on edge 2 to 3.
    let places = vec![[0, 3, 3], [9, 9, 9], [0, 6, 0], [0, 0, 6], [5, 0, 0]];
    let d = ordered(places, [(0, 1), (1, 2), (1, 3), (2, 3), (2, 4), (3, 4), (1, 4)]);
    assert_eq!(refusal(converted(&d, 0).answer), (EDGE_MEETS, number(&d, (2, 3))));
}

#[test]
fn at_a_crossing_the_lower_edge_has_the_place() {
    let places = vec![[0, 0, 0], [4, 0, 0], [4, 4, 0], [0, 4, 0], [1, 1, 5]];
    let d = ordered(places, [(0, 1), (1, 2), (2, 3), (0, 3), (0, 2), (1, 3), (0, 4)]);
    assert_eq!(refusal(converted(&d, 0).answer), (EDGE_MEETS, number(&d, (0, 2))));
}

#[test]
fn an_overlap_makes_both_offend() {
    // Edge 0 to 1 lies in 0 to 4; then vertex 4 lies between 0 and 1.
    assert_eq!(refusal(converted(&with_fifth([12, 0, 0], &[(0, 4)]), 0).answer), (EDGE_MEETS, 0));
    assert_eq!(refusal(converted(&with_fifth([3, 0, 0], &[(0, 4), (1, 4)]), 0).answer), (EDGE_MEETS, 0));
    // With no end in common: 2 to 4 is 6 to 0 along y, and 0 to 3 .. -3 to 3.
    let places = vec![[0, 0, 0], [0, 6, 0], [0, 3, 0], [0, 9, 0], [5, 5, 5], [-4, 2, 7]];
    let d = ordered(places, [(0, 1), (2, 3), (0, 4), (1, 4), (2, 4), (3, 4), (0, 5), (3, 5)]);
    assert_eq!(refusal(converted(&d, 0).answer), (EDGE_MEETS, 0));
}

#[test]
fn straight_on_is_allowed() {
    let d = with_fifth([12, 0, 0], &[(1, 4), (3, 4)]);
    assert_ne!(refusal(converted(&d, 0).answer).0, EDGE_MEETS);
}
