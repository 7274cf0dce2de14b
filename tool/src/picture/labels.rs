//! Where numbers stand: beside their vertices, away from edges and from each other.
use super::flat::{distance, length, minus, Point};

/// Sixteen directions round a vertex; the first ones are preferred.
const ROUND: [Point; 16] = [
    [0.707, -0.707],
    [-0.707, -0.707],
    [0.707, 0.707],
    [-0.707, 0.707],
    [0.0, -1.0],
    [1.0, 0.0],
    [-1.0, 0.0],
    [0.0, 1.0],
    [0.383, -0.924],
    [0.924, -0.383],
    [-0.383, -0.924],
    [-0.924, -0.383],
    [0.383, 0.924],
    [0.924, 0.383],
    [-0.383, 0.924],
    [-0.924, 0.383],
];

/// What a label belongs to, and how far from there its middle is, in pixels.
#[derive(Clone, Copy)]
pub struct Spot {
    pub at: Point,
    pub away: f64,
}

/// The middles of the labels, in pixels.
pub fn places(spots: &[Spot], lines: &[[Point; 2]]) -> Vec<Point> {
    let mut placed: Vec<Point> = Vec::new();
    for (number, &Spot { at, away }) in spots.iter().enumerate() {
        let mut best = (f64::NEG_INFINITY, at);
        for direction in ROUND {
            let place = [at[0] + away * direction[0], at[1] + away * direction[1]];
            let free = room(place, number, spots, lines, &placed);
            // a little more room is no reason to leave the preferred directions
            if free > best.0 + 0.5 {
                best = (free, place);
            }
        }
        placed.push(best.1);
    }
    placed
}

/// The distance from the nearest edge, from the other spots, and from labels, which need twice as much.
fn room(place: Point, own: usize, spots: &[Spot], lines: &[[Point; 2]], placed: &[Point]) -> f64 {
    let lines = lines.iter().map(|line| distance(place, line[0], line[1]));
    let others = spots.iter().enumerate().filter(|(number, _)| *number != own);
    let spots_apart = others.map(|(_, spot)| length(minus(place, spot.at)) - 2.0);
    let labels = placed.iter().map(|label| length(minus(place, *label)) / 2.0);
    lines.chain(spots_apart).chain(labels).fold(spots[own].away, f64::min)
}
