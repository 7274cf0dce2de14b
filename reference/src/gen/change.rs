//! Changes to a drawing: other numbers, other places, edits.
use super::maker::*;
use super::rng::Rng;
use crate::drawing::Drawing;
use crate::numbers::COORDINATE;
use crate::vector::{add, det, dot};

/// The same drawing with its vertices numbered anew.
pub fn renumbered(r: &mut Rng, d: &Drawing) -> Drawing {
    with_numbers(d, &new_numbers(r, d.vertices.len()))
}

/// A new number for each of so many vertices.
pub fn new_numbers(r: &mut Rng, vertices: usize) -> Vec<usize> {
    let mut old: Vec<usize> = (0..vertices).collect();
    r.shuffle(&mut old);
    let mut new = vec![0; vertices];
    old.iter().enumerate().for_each(|(k, v)| new[*v] = k);
    new
}

/// The same drawing with number `new[v]` for vertex v, and its edges sorted again.
pub fn with_numbers(d: &Drawing, new: &[usize]) -> Drawing {
    let mut vertices = d.vertices.clone();
    new.iter().zip(&d.vertices).for_each(|(number, place)| vertices[*number] = *place);
    ordered(vertices, d.edges.iter().map(|(a, b)| (new[*a], new[*b])))
}

/// Without the vertices that are on no edge.
pub fn drop_loose(d: &Drawing) -> Drawing {
    let on_edge = |v: &usize| d.edges.iter().any(|(a, b)| a == v || b == v);
    let kept: Vec<usize> = (0..d.vertices.len()).filter(on_edge).collect();
    let new = |v: usize| kept.partition_point(|k| *k < v);
    ordered(kept.iter().map(|v| d.vertices[*v]).collect(), d.edges.iter().map(|(a, b)| (new(*a), new(*b))))
}

/// A whole-number affine image within the range, often at its border; the drawing itself if none is found quickly.
pub fn affine(r: &mut Rng, d: &Drawing) -> Drawing {
    for _ in 0..20 {
        let rows = matrix(r);
        if det(rows[0], rows[1], rows[2]) == 0 || d.vertices.is_empty() {
            continue;
        }
        let image: Vec<Place> = d.vertices.iter().map(|p| rows.map(|row| dot(row, *p))).collect();
        if let Some(shift) = into_range(r, &image) {
            return Drawing { vertices: image.iter().map(|p| add(*p, shift)).collect(), edges: d.edges.clone() };
        }
    }
    d.clone()
}

/// Rows of any matrix, or of one that only swaps, turns and stretches the axes.
fn matrix(r: &mut Rng) -> [Place; 3] {
    let most = r.pick(&[1, 1, 2, 3, 10, 40]);
    if r.chance(60) {
        return std::array::from_fn(|_| std::array::from_fn(|_| r.range(-most, most)));
    }
    let mut axes = [0, 1, 2];
    r.shuffle(&mut axes);
    axes.map(|axis| {
        let mut row = [0; 3];
        row[axis] = r.range(1, most) * r.pick(&[1, -1]);
        row
    })
}

/// A shift that brings all places into the range, if they are close enough together.
pub fn into_range(r: &mut Rng, places: &[Place]) -> Option<Place> {
    let mut shift = [0; 3];
    for axis in 0..3 {
        let along = || places.iter().map(|p| p[axis]);
        let (low, high) = (COORDINATE.start() - along().min()?, COORDINATE.end() - along().max()?);
        if low > high {
            return None;
        }
        shift[axis] = match r.below(4) {
            0 => low,
            1 => high,
            _ => r.range(low, high),
        };
    }
    Some(shift)
}

/// One to three edits: an edge taken away or put in, a vertex moved.
pub fn edited(r: &mut Rng, d: &Drawing) -> Drawing {
    let mut d = d.clone();
    for _ in 0..r.count(1, 3) {
        if d.vertices.len() < 2 || d.edges.is_empty() {
            break;
        }
        let (a, b) = (r.below(d.vertices.len()), r.below(d.vertices.len()));
        match r.below(4) {
            0 => {
                d.edges.remove(r.below(d.edges.len()));
            }
            1 => d.vertices[a][r.below(3)] += r.range(-2, 2),
            _ if a != b => d.edges.push((a, b)),
            _ => {}
        }
        d = ordered(d.vertices, d.edges);
    }
    if r.chance(80) {
        drop_loose(&d)
    } else {
        d
    }
}
