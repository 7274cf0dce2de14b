//! Polygons in a plane, to build on.
use super::maker::Place;
use super::rng::Rng;
use crate::vector::sides;

pub type Spot = [i64; 2];

fn turn(a: Spot, b: Spot) -> i64 {
    a[0] * b[1] - a[1] * b[0]
}

/// A simple polygon round the origin: spots on different rays, in order of angle, often with corners above 180 degrees.
pub fn star(r: &mut Rng, corners: usize, size: i64) -> Vec<Spot> {
    loop {
        let mut spots: Vec<Spot> = vec![];
        for _ in 0..40 * corners {
            let q = [r.range(-size, size), r.range(-size, size)];
            let one_ray = |p: &Spot| turn(*p, q) == 0 && p[0] * q[0] + p[1] * q[1] >= 0;
            if spots.len() < corners && q != [0, 0] && !spots.iter().any(one_ray) {
                spots.push(q);
            }
        }
        let lower = |p: &Spot| p[1] < 0 || (p[1] == 0 && p[0] < 0);
        spots.sort_by(|a, b| lower(a).cmp(&lower(b)).then(turn(*b, *a).cmp(&0)));
        // The origin is seen from every side under less than 180 degrees, so no two sides cross.
        if spots.len() == corners && sides(&spots).all(|(a, b)| turn(a, b) > 0) {
            return spots;
        }
    }
}

/// A polygon of 3 to 16 corners, all below 180 degrees.
pub fn convex(corners: usize) -> Vec<Spot> {
    let ways = [[2, 0], [2, 1], [1, 1], [1, 2], [0, 2], [-1, 2], [-1, 1], [-2, 1]];
    let half = corners.div_ceil(2);
    let there = (0..half).map(|k| ways[k * ways.len() / half]);
    let steps: Vec<Spot> = there.clone().chain(there.map(|s| [-s[0], -s[1]])).collect();
    let mut spots = vec![[0, 0]];
    for step in &steps[..corners - 1] {
        let last = spots[spots.len() - 1];
        spots.push([last[0] + step[0], last[1] + step[1]]);
    }
    spots
}

/// L, U, T, plus, stairs, a comb of twelve corners, and the notch.
pub const ANGULAR: [&[Spot]; 7] = [
    &[[0, 0], [4, 0], [4, 2], [2, 2], [2, 4], [0, 4]],
    &[[0, 0], [6, 0], [6, 4], [4, 4], [4, 2], [2, 2], [2, 4], [0, 4]],
    &[[2, 0], [4, 0], [4, 4], [6, 4], [6, 6], [0, 6], [0, 4], [2, 4]],
    &[[2, 0], [4, 0], [4, 2], [6, 2], [6, 4], [4, 4], [4, 6], [2, 6], [2, 4], [0, 4], [0, 2], [2, 2]],
    &[[0, 0], [6, 0], [6, 2], [4, 2], [4, 4], [2, 4], [2, 6], [0, 6]],
    &[[0, 0], [10, 0], [10, 4], [8, 4], [8, 2], [6, 2], [6, 4], [4, 4], [4, 2], [2, 2], [2, 4], [0, 4]],
    &[[0, 0], [4, 0], [4, 4], [2, 2], [0, 4]],
];

/// Lattice polygons round the origin, with corners in opposite couples where their number is even.
pub fn round(corners: usize) -> Vec<Spot> {
    match corners {
        3 => vec![[1, 0], [0, 1], [-1, -1]],
        4 => vec![[1, 0], [0, 1], [-1, 0], [0, -1]],
        5 => vec![[2, 0], [1, 2], [-2, 1], [-2, -1], [1, -2]],
        6 => vec![[1, 0], [0, 1], [-1, 1], [-1, 0], [0, -1], [1, -1]],
        _ => vec![[2, 1], [1, 2], [-1, 2], [-2, 1], [-2, -1], [-1, -2], [1, -2], [2, -1]],
    }
}

/// The polygon at height z, k times as large, shifted.
pub fn lift(spots: &[Spot], z: i64, k: i64, shift: Spot) -> Vec<Place> {
    spots.iter().map(|p| [k * p[0] + shift[0], k * p[1] + shift[1], z]).collect()
}
