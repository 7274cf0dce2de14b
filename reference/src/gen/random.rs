//! Random points, joined at random or by as many edges as don't meet.
use super::maker::*;
use super::rng::Rng;
use crate::drawing::Drawing;
use crate::fast::edges_meet;
use crate::vector::{dot, sub};

pub fn places(r: &mut Rng, count: usize, size: i64) -> Vec<Place> {
    (0..count).map(|_| std::array::from_fn(|_| r.range(-size, size))).collect()
}

/// Different lattice places between 0 and `size`, as many of `count` as are found quickly.
pub fn lattice(r: &mut Rng, count: usize, size: Place) -> Vec<Place> {
    let mut places: Vec<Place> = vec![];
    for _ in 0..20 * count {
        let place = size.map(|s| r.range(0, s));
        if places.len() < count && !places.contains(&place) {
            places.push(place);
        }
    }
    places
}

/// Joins places by up to `edges` edges, leaving out each that would meet another off its ends.
pub fn clean(r: &mut Rng, places: Vec<Place>, edges: usize) -> Drawing {
    let mut all = pairs(places.len(), |_, _| true);
    r.shuffle(&mut all);
    // Short ones first make more faces.
    if r.chance(70) {
        let way = |(a, b): &(usize, usize)| sub(places[*a], places[*b]);
        all.sort_by_key(|pair| dot(way(pair), way(pair)));
    }
    let mut kept: Vec<(usize, usize)> = vec![];
    for edge in all {
        if kept.len() < edges && meets_none(&places, &kept, edge) {
            kept.push(edge);
        }
    }
    ordered(places, kept)
}

/// Has an edge no point in common with some others and the places, but for its ends?
pub fn meets_none(places: &[Place], edges: &[(usize, usize)], edge: (usize, usize)) -> bool {
    let meets = |other: (usize, usize)| edges_meet(places, edge, other);
    !edges.iter().any(|other| meets(*other)) && !(0..places.len()).any(|v| meets((v, v)))
}

/// Spots of a plane, joined by up to so many edges that don't meet.
pub fn flat_net(r: &mut Rng, edges: usize) -> Drawing {
    let (count, size) = (r.count(4, 10), r.range(2, 4));
    let places = lattice(r, count, [size, size, 0]);
    clean(r, places, edges)
}

/// Anything: most are refused.
pub fn raw(r: &mut Rng) -> Drawing {
    let (vertices, size) = (r.count(4, 32), r.pick(&[1, 2, 3, 10, 1_000]));
    let places = places(r, vertices, size);
    let edges: Vec<(usize, usize)> = (0..r.count(6, 64)).map(|_| (r.below(vertices), r.below(vertices))).collect();
    ordered(places, edges.into_iter().filter(|(a, b)| a != b))
}
