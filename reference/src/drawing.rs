//! The drawing, and a loop of it.
use crate::polygon::Point;

/// Vertices with whole coordinates, edges as pairs of vertex numbers.
#[derive(Clone, Debug, PartialEq, Eq)]
pub struct Drawing {
    pub vertices: Vec<[i64; 3]>,
    pub edges: Vec<(usize, usize)>,
}

/// A closed path as a list of vertex numbers.
pub type Loop = Vec<usize>;

impl Drawing {
    pub fn point(&self, vertex: usize) -> Point {
        self.vertices[vertex].map(i128::from)
    }

    pub fn points(&self, l: &[usize]) -> Vec<Point> {
        l.iter().map(|v| self.point(*v)).collect()
    }

    /// Coordinates (3 per vertex) and ends (2 per edge).
    pub fn lists(&self) -> (Vec<i64>, Vec<i64>) {
        let ends = self.edges.iter().flat_map(|(a, b)| [*a as i64, *b as i64]);
        (self.vertices.iter().flatten().copied().collect(), ends.collect())
    }
}
