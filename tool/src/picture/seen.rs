//! A drawing as it is seen, and the walls of a solid that look at the viewer.
use super::flat::{Point, TINY};
use super::view::{best, flat, View};
use crate::model::{Drawing, Face, Solid};

/// The vertices as right, up and nearness, and the edges between them.
pub struct Seen {
    pub view: View,
    pub points: Vec<[f64; 3]>,
    pub edges: Vec<[usize; 2]>,
    vertices: Vec<[i64; 3]>,
}

/// A wall that looks at the viewer. Its corners turn left on the picture.
pub struct Wall {
    pub candidate: usize,
    pub corners: Vec<usize>,
    pub points: Vec<[f64; 3]>,
    /// Outward, of length 1: to the right, up, and towards the viewer, which is above 0.
    pub normal: [f64; 3],
}

impl Seen {
    /// A drawing with its solids, none of which may be known: the view shows as much of their walls as it can.
    pub fn new(drawing: &Drawing, solids: &[Solid]) -> Seen {
        let faces = solids.iter().flat_map(|solid| &solid.faces);
        let normals: Vec<[i64; 3]> = faces.map(|face| normal(&drawing.vertices, &face.corners)).collect();
        let view = best(drawing, &normals);
        Seen {
            points: drawing.vertices.iter().map(|&vertex| view.seen(vertex)).collect(),
            edges: drawing.edges.clone(),
            vertices: drawing.vertices.clone(),
            view,
        }
    }

    /// The two ends of an edge on the picture.
    pub fn line(&self, edge: usize) -> [Point; 2] {
        self.edges[edge].map(|end| flat(self.points[end]))
    }

    /// How near the point of an edge is that is `part` of the way along it.
    pub fn nearness(&self, edge: usize, part: f64) -> f64 {
        let [from, to] = self.edges[edge].map(|end| self.points[end][2]);
        from + part * (to - from)
    }

    /// Whether the first of two points on edges is nearer to the viewer.
    pub fn is_nearer(&self, (edge, part): (usize, f64), (other, at): (usize, f64)) -> bool {
        self.nearness(edge, part) > self.nearness(other, at) + TINY
    }

    /// The walls that look at the viewer: in a closed body they hide all others.
    pub fn walls(&self, faces: &[Face]) -> Vec<Wall> {
        faces.iter().filter_map(|face| self.wall(face)).collect()
    }

    fn wall(&self, face: &Face) -> Option<Wall> {
        let normal = normal(&self.vertices, &face.corners);
        if !self.view.meets(normal) {
            return None;
        }
        let across = self.view.seen(normal);
        let size = across.iter().map(|part| part * part).sum::<f64>().sqrt();
        Some(Wall {
            candidate: face.candidate,
            corners: face.corners.clone(),
            points: face.corners.iter().map(|&corner| self.points[corner]).collect(),
            normal: across.map(|part| part / size),
        })
    }
}

/// The sum of the cross products of successive corners: outward, twice as long as the wall's area.
fn normal(vertices: &[[i64; 3]], corners: &[usize]) -> [i64; 3] {
    let mut sum = [0; 3];
    for (i, &corner) in corners.iter().enumerate() {
        let (p, q) = (vertices[corner], vertices[corners[(i + 1) % corners.len()]]);
        for (axis, part) in sum.iter_mut().enumerate() {
            let (u, v) = ((axis + 1) % 3, (axis + 2) % 3);
            *part += p[u] * q[v] - p[v] * q[u];
        }
    }
    sum
}

impl Wall {
    pub fn outline(&self) -> Vec<Point> {
        self.points.iter().map(|&point| flat(point)).collect()
    }

    /// How near the wall's plane is to the viewer at a point of the picture.
    pub fn nearness(&self, p: Point) -> f64 {
        let [right, up, near] = self.normal;
        let [x, y, z] = self.points[0];
        z - (right * (p[0] - x) + up * (p[1] - y)) / near
    }

    /// How far a point is in front of the wall's plane; below 0 it is behind.
    pub fn before(&self, point: [f64; 3]) -> f64 {
        (0..3).map(|axis| self.normal[axis] * (point[axis] - self.points[0][axis])).sum()
    }
}
