//! Walls that hide each other in a circle: cut by each other's planes until there is an order.
use super::flat::{Point, TINY};
use super::seen::Wall;
use super::triangles::triangles;
use super::view::flat;

/// A wall, or a part of one, ready to be painted.
pub struct Piece {
    /// The wall's number in the list.
    pub wall: usize,
    pub outline: Vec<Point>,
}

/// A convex part of a wall in space.
#[derive(Clone)]
struct Part {
    wall: usize,
    points: Vec<[f64; 3]>,
}

/// The given walls in parts, back to front.
pub fn split(walls: &[Wall], chosen: &[usize]) -> Vec<Piece> {
    let parts = chosen.iter().flat_map(|&wall| {
        let points = &walls[wall].points;
        let cut = triangles(&walls[wall].outline()).into_iter();
        cut.map(move |triangle| Part { wall, points: triangle.map(|corner| points[corner]).to_vec() })
    });
    let mut sorted = Vec::new();
    sort(walls, parts.collect(), &mut sorted);
    sorted
        .into_iter()
        .map(|part| Piece { wall: part.wall, outline: part.points.into_iter().map(flat).collect() })
        .collect()
}

/// All walls look at the viewer, so what is behind a plane is painted before what is in front of it.
fn sort(walls: &[Wall], parts: Vec<Part>, sorted: &mut Vec<Part>) {
    let mut parts = parts.into_iter();
    let Some(first) = parts.next() else { return };
    let plane = &walls[first.wall];
    let (mut far, mut near) = (Vec::new(), Vec::new());
    for part in parts {
        far.extend(beyond(plane, &part, -1.0));
        near.extend(beyond(plane, &part, 1.0));
    }
    sort(walls, far, sorted);
    sorted.push(first);
    sort(walls, near, sorted);
}

/// What of a part is on one side of a wall's plane: 1 in front, -1 behind. A part in the plane counts as in front.
fn beyond(plane: &Wall, part: &Part, side: f64) -> Option<Part> {
    let far: Vec<f64> = part.points.iter().map(|&point| side * plane.before(point)).collect();
    let flat = far.iter().all(|far| far.abs() <= TINY);
    if far.iter().all(|&far| far <= TINY) && !(flat && side > 0.0) {
        return None;
    }
    let mut points = Vec::new();
    for (i, &p) in part.points.iter().enumerate() {
        let next = (i + 1) % far.len();
        if far[i] >= -TINY {
            points.push(p);
        }
        if (far[i] > TINY && far[next] < -TINY) || (far[i] < -TINY && far[next] > TINY) {
            let (q, share) = (part.points[next], far[i] / (far[i] - far[next]));
            points.push([0, 1, 2].map(|axis| p[axis] + share * (q[axis] - p[axis])));
        }
    }
    Some(Part { wall: part.wall, points })
}
