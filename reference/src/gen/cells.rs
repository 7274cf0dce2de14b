//! Drawings of sets of unit cubes: all their edges, or those of their outer skin.
use super::change::drop_loose;
use super::known::box_of;
use super::maker::*;
use super::rng::Rng;
use crate::drawing::Drawing;
use crate::vector::{cross, sub};
use std::collections::BTreeSet;

const STEP: i64 = 3;

/// Joined cells, up to two from the first along each axis.
pub fn random_cells(r: &mut Rng, count: usize) -> Vec<Place> {
    let mut cells: Vec<Place> = vec![[0; 3]];
    for _ in 0..20 * count {
        let mut cell = r.pick(&cells);
        cell[r.below(3)] += r.pick(&[1, -1]);
        if cells.len() < count && cell.iter().all(|c| c.abs() <= 2) && !cells.contains(&cell) {
            cells.push(cell);
        }
    }
    cells
}

/// All edges of the cells.
pub fn all_edges(cells: &[Place]) -> Drawing {
    let mut m = Maker::default();
    cells.iter().for_each(|c| m.drawing(&box_of([0; 3], [STEP; 3]), c.map(|c| STEP * c)));
    m.done()
}

/// The edges of the outer skin; those inside a flat wall only where `flat` asks for them.
pub fn skin(cells: &[Place], flat: bool) -> Drawing {
    let mut m = Maker::default();
    for axis in 0..3 {
        let (b, c) = ((axis + 1) % 3, (axis + 2) % 3);
        let moved = |p: Place, i: i64, j: i64| {
            let mut q = p;
            q[b] += i;
            q[c] += j;
            q
        };
        let round = [(0, 0), (1, 0), (1, 1), (0, 1)];
        let starts: BTreeSet<Place> = cells.iter().flat_map(|p| round.map(|(i, j)| moved(*p, i, j))).collect();
        for start in starts {
            // The four cells round the edge that starts here.
            let full = round.map(|(i, j)| cells.contains(&moved(start, -i, -j)));
            let keep = match full.iter().filter(|f| **f).count() {
                4 => false,
                2 => flat || full[0] == full[2],
                _ => true,
            };
            if keep {
                let mut end = start;
                end[axis] += 1;
                m.line(start.map(|c| STEP * c), end.map(|c| STEP * c));
            }
        }
    }
    m.done()
}

/// Without the vertices that have just two edges, on one line.
pub fn straightened(d: &Drawing) -> Drawing {
    let mut edges: BTreeSet<(usize, usize)> = d.edges.iter().copied().collect();
    for v in 0..d.vertices.len() {
        let near: Vec<usize> = edges.iter().filter(|(a, b)| *a == v || *b == v).map(|(a, b)| a + b - v).collect();
        if let [a, b] = near[..] {
            let way = |to: usize| sub(d.vertices[to], d.vertices[v]);
            if cross(way(a), way(b)) == [0; 3] {
                edges.retain(|(x, y)| *x != v && *y != v);
                edges.insert((a.min(b), a.max(b)));
            }
        }
    }
    drop_loose(&ordered(d.vertices.clone(), edges))
}
