//! The direction from which a drawing is seen: the one of a fixed list in which the least lies upon each other.
use super::flat::{distance, length, meeting, minus, Point};
use crate::model::Drawing;

/// Directions towards the viewer in whole numbers, off the isometric ones so that a box's edges don't fall on each
/// other. Each is tried from four sides. The first ones are preferred: x to the right, y away, z up.
const SLOPES: [[i64; 3]; 12] = [
    [29, -53, 31],
    [37, -47, 29],
    [23, -59, 37],
    [41, -53, 43],
    [31, -59, 23],
    [19, -61, 29],
    [43, -47, 37],
    [29, -43, 53],
    [47, -59, 61],
    [17, -67, 41],
    [23, -41, 67],
    [53, -61, 19],
];

/// A distance that is enough, as part of the picture's size: above it only crossings count.
const ENOUGH: f64 = 0.07;
/// What a crossing costs, in distances that are enough.
const CROSSING: f64 = 0.02;
/// What it is worth, likewise, to see all walls instead of none.
const WALLS: f64 = 0.5;

/// A direction towards the viewer, and three directions at right angles, of length 1: to the right, up, and that one.
#[derive(Clone, Copy, Debug, PartialEq)]
pub struct View {
    direction: [i64; 3],
    axes: [[f64; 3]; 3],
}

impl View {
    /// The view from a direction that isn't straight up or down, with z up on the picture.
    pub fn towards([a, b, c]: [i64; 3]) -> View {
        let axes = [unit([-b, a, 0]), unit([-a * c, -b * c, a * a + b * b]), unit([a, b, c])];
        View { direction: [a, b, c], axes }
    }

    /// A point or direction as right, up and nearness.
    pub fn seen(&self, point: [i64; 3]) -> [f64; 3] {
        let [x, y, z] = point.map(|part| part as f64);
        self.axes.map(|axis| axis[0] * x + axis[1] * y + axis[2] * z)
    }

    /// Whether a wall with this normal looks at the viewer; it is decided in whole numbers.
    pub fn meets(&self, normal: [i64; 3]) -> bool {
        (0..3).map(|i| normal[i] * self.direction[i]).sum::<i64>() > 0
    }
}

fn unit(direction: [i64; 3]) -> [f64; 3] {
    let size = (direction.iter().map(|part| part * part).sum::<i64>() as f64).sqrt();
    direction.map(|part| part as f64 / size)
}

/// The best view of a drawing and of walls with these normals.
pub fn best(drawing: &Drawing, normals: &[[i64; 3]]) -> View {
    let touches = Touches::of(drawing);
    let mut best = (f64::NEG_INFINITY, View::towards(SLOPES[0]));
    for direction in directions() {
        let view = View::towards(direction);
        let facing = normals.iter().filter(|normal| view.meets(**normal)).count() as f64;
        let walls = WALLS * facing / normals.len().max(1) as f64;
        let worth = worth(drawing, &touches, &view) + walls;
        // between equals the first is taken
        if worth > best.0 {
            best = (worth, view);
        }
    }
    best.1
}

fn directions() -> impl Iterator<Item = [i64; 3]> {
    let sides = |[a, b, c]: [i64; 3]| [[a, b, c], [-b, a, c], [b, -a, c], [-a, -b, c]];
    (0..4).flat_map(move |side| SLOPES.map(|slope| sides(slope)[side]))
}

/// What meets in space, so that no view can part it.
struct Touches {
    /// By vertex and vertex: at one point.
    vertices: Vec<Vec<bool>>,
    /// By vertex and edge: the vertex is on the edge.
    edges: Vec<Vec<bool>>,
}

impl Touches {
    fn of(drawing: &Drawing) -> Touches {
        let at = &drawing.vertices;
        let on = |p: &[i64; 3], e: &[usize; 2]| on_edge(*p, at[e[0]], at[e[1]]);
        Touches {
            vertices: at.iter().map(|p| at.iter().map(|q| p == q).collect()).collect(),
            edges: at.iter().map(|p| drawing.edges.iter().map(|e| on(p, e)).collect()).collect(),
        }
    }
}

fn on_edge(p: [i64; 3], a: [i64; 3], b: [i64; 3]) -> bool {
    let less = |p: [i64; 3], q: [i64; 3]| [p[0] - q[0], p[1] - q[1], p[2] - q[2]];
    let (u, v, w) = (less(b, a), less(p, a), less(p, b));
    let straight = (0..3).all(|i| u[i] * v[(i + 1) % 3] == u[(i + 1) % 3] * v[i]);
    straight && (0..3).map(|i| v[i] * w[i]).sum::<i64>() <= 0
}

/// How much a view shows: the smallest distance of what is apart, less its crossings.
fn worth(drawing: &Drawing, touches: &Touches, view: &View) -> f64 {
    let points: Vec<Point> = drawing.vertices.iter().map(|&p| flat(view.seen(p))).collect();
    let lines: Vec<[Point; 2]> = drawing.edges.iter().map(|e| e.map(|end| points[end])).collect();
    let size = size(&points);
    let mut least = ENOUGH * size;
    for (v, &p) in points.iter().enumerate() {
        let others = points.iter().enumerate().skip(v + 1).filter(|(w, _)| !touches.vertices[v][*w]);
        least = others.fold(least, |least, (_, &q)| least.min(length(minus(p, q))));
        let edges = lines.iter().enumerate().filter(|(e, _)| !touches.edges[v][*e]);
        least = edges.fold(least, |least, (_, line)| least.min(distance(p, line[0], line[1])));
    }
    least / (ENOUGH * size) - CROSSING * crossings(drawing, &lines) as f64
}

fn crossings(drawing: &Drawing, lines: &[[Point; 2]]) -> usize {
    let apart = |i: usize, j: usize| drawing.edges[i].iter().all(|end| !drawing.edges[j].contains(end));
    let pairs = (0..lines.len()).flat_map(|i| (i + 1..lines.len()).map(move |j| (i, j)));
    pairs.filter(|&(i, j)| apart(i, j) && meeting(lines[i], lines[j]).is_some()).count()
}

/// The larger of width and height, and 1 where all is at one point.
fn size(points: &[Point]) -> f64 {
    let extent = |axis: usize| {
        let range =
            points.iter().fold([f64::INFINITY, f64::NEG_INFINITY], |r, p| [r[0].min(p[axis]), r[1].max(p[axis])]);
        range[1] - range[0]
    };
    let size = extent(0).max(extent(1));
    if size > 0.0 {
        size
    } else {
        1.0
    }
}

/// Without the nearness.
pub fn flat(seen: [f64; 3]) -> Point {
    [seen[0], seen[1]]
}
