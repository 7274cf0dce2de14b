//! Putting a drawing together from points and lines.
use crate::drawing::Drawing;
use crate::vector::{add, sides};
use std::collections::BTreeSet;

pub type Place = [i64; 3];

/// Collects lines; equal places are one vertex.
#[derive(Default)]
pub struct Maker {
    places: Vec<Place>,
    edges: BTreeSet<(usize, usize)>,
}

impl Maker {
    fn vertex(&mut self, place: Place) -> usize {
        self.places.iter().position(|p| *p == place).unwrap_or_else(|| {
            self.places.push(place);
            self.places.len() - 1
        })
    }

    pub fn line(&mut self, a: Place, b: Place) {
        let (a, b) = (self.vertex(a), self.vertex(b));
        if a != b {
            self.edges.insert((a.min(b), a.max(b)));
        }
    }

    pub fn ring(&mut self, places: &[Place]) {
        sides(places).for_each(|(a, b)| self.line(a, b));
    }

    /// A point joined to each of some others.
    pub fn fan(&mut self, from: Place, to: &[Place]) {
        to.iter().for_each(|p| self.line(from, *p));
    }

    /// Like corners of two rings joined.
    pub fn join(&mut self, a: &[Place], b: &[Place]) {
        a.iter().zip(b).for_each(|(p, q)| self.line(*p, *q));
    }

    /// Rings one after the other, like corners of neighbours joined.
    pub fn layers(&mut self, rings: &[Vec<Place>]) {
        rings.iter().for_each(|ring| self.ring(ring));
        rings.windows(2).for_each(|pair| self.join(&pair[0], &pair[1]));
    }

    /// Another drawing, shifted.
    pub fn drawing(&mut self, d: &Drawing, shift: Place) {
        let place = |v: usize| add(d.vertices[v], shift);
        d.edges.iter().for_each(|(a, b)| self.line(place(*a), place(*b)));
    }

    pub fn done(self) -> Drawing {
        Drawing { vertices: self.places, edges: self.edges.into_iter().collect() }
    }
}

/// A drawing with its edges put in order.
pub fn ordered(vertices: Vec<Place>, edges: impl IntoIterator<Item = (usize, usize)>) -> Drawing {
    let edges: BTreeSet<(usize, usize)> = edges.into_iter().map(|(a, b)| (a.min(b), a.max(b))).collect();
    Drawing { vertices, edges: edges.into_iter().collect() }
}

/// All pairs of vertices for which `keep` holds.
pub fn pairs(vertices: usize, keep: impl Fn(usize, usize) -> bool) -> Vec<(usize, usize)> {
    let all = (0..vertices).flat_map(|a| (a + 1..vertices).map(move |b| (a, b)));
    all.filter(|(a, b)| keep(*a, *b)).collect()
}

/// Every vertex joined to every other.
pub fn complete(places: &[Place]) -> Drawing {
    ordered(places.to_vec(), pairs(places.len(), |_, _| true))
}

/// Vertices 0 and 1, 2 and 3, .. are left unjoined; all other pairs are joined.
pub fn all_but_couples(places: &[Place]) -> Drawing {
    ordered(places.to_vec(), pairs(places.len(), |a, b| a / 2 != b / 2))
}
