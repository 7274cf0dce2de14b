//! Known drawings with their solids, as a conversion gives them.
use crate::model::{Conversion, Drawing, Face, Refusal, Search, Solid};
use nibgravel_numbers::Number;

pub type Known = (Drawing, Conversion);

/// The drawing that has just the sides of these walls for edges, and the walls as its only solid.
pub fn body(vertices: &[[i64; 3]], walls: &[Vec<usize>]) -> Known {
    bodies(vertices, &[walls.to_vec()])
}

/// The same with several solids, each of which has all edges.
pub fn bodies(vertices: &[[i64; 3]], solids: &[Vec<Vec<usize>>]) -> Known {
    let mut candidates: Vec<Vec<usize>> = Vec::new();
    for wall in solids.iter().flatten() {
        if !candidates.iter().any(|other| same(other, wall)) {
            candidates.push(wall.clone());
        }
    }
    let search = Search { loops: candidates.len() as u64, candidates: candidates.len() as u64, work: 4 };
    let solids = solids.iter().map(|walls| solid(&candidates, walls)).collect();
    let drawing = Drawing { vertices: vertices.to_vec(), edges: sides(&candidates) };
    (drawing, Conversion::Report { search, candidates, solids })
}

/// Whether two walls have the same corners; of these drawings' walls no two that differ have.
fn same(a: &[usize], b: &[usize]) -> bool {
    a.len() == b.len() && a.iter().all(|corner| b.contains(corner))
}

fn solid(candidates: &[Vec<usize>], walls: &[Vec<usize>]) -> Solid {
    let mut faces: Vec<Face> = Vec::new();
    for (candidate, corners) in candidates.iter().enumerate() {
        if let Some(wall) = walls.iter().find(|wall| same(wall, corners)) {
            faces.push(Face { candidate, turned: false, corners: wall.clone() });
        }
    }
    let taken = faces.iter().map(|face| 1 << face.candidate).sum();
    Solid { taken, turned: 0, six: 987_654_321, faces }
}

fn sides(walls: &[Vec<usize>]) -> Vec<[usize; 2]> {
    let both = |wall: &Vec<usize>, i: usize| {
        let (a, b) = (wall[i], wall[(i + 1) % wall.len()]);
        [a.min(b), a.max(b)]
    };
    let mut edges: Vec<[usize; 2]> =
        walls.iter().flat_map(|wall| (0..wall.len()).map(move |i| both(wall, i))).collect();
    edges.sort();
    edges.dedup();
    edges
}

/// A base that turns left, seen from above, and the same at a height.
pub fn prism(base: &[[i64; 2]], height: i64) -> Known {
    let n = base.len();
    let vertices: Vec<[i64; 3]> = [0, height].iter().flat_map(|&z| base.iter().map(move |p| [p[0], p[1], z])).collect();
    let mut walls: Vec<Vec<usize>> = (0..n).map(|i| vec![i, (i + 1) % n, n + (i + 1) % n, n + i]).collect();
    walls.push((0..n).rev().collect());
    walls.push((n..2 * n).collect());
    body(&vertices, &walls)
}

pub fn a_box() -> Known {
    prism(&[[0, 0], [120, 0], [120, 80], [0, 80]], 200)
}

pub fn l_shape() -> Known {
    prism(&[[0, 0], [180, 0], [180, 60], [60, 60], [60, 240], [0, 240]], 150)
}

pub fn octahedron() -> Known {
    let vertices = [[10, 0, 0], [-10, 0, 0], [0, 10, 0], [0, -10, 0], [0, 0, 10], [0, 0, -10]];
    let upper = [[0, 2], [2, 1], [1, 3], [3, 0]];
    let walls: Vec<Vec<usize>> = upper.iter().flat_map(|&[a, b]| [vec![a, b, 4], vec![b, a, 5]]).collect();
    body(&vertices, &walls)
}

/// A frame round an opening along z: a square ring with its top and bottom in four parts.
pub fn frame() -> Known {
    let vertices = corners_of_boxes([200, 180, 50], [110, 90, 50]);
    body(&vertices, &tunnel(&vertices, 2))
}

/// A cube in a cube, like corners joined: three solids, each with a tunnel along another axis.
pub fn nested_cubes() -> Known {
    let vertices = corners_of_boxes([20, 20, 20], [10, 10, 10]);
    bodies(&vertices, &[0, 1, 2].map(|axis| tunnel(&vertices, axis)))
}

/// Corners of two boxes round the origin: vertex number bit 0 is x, 1 is y, 2 is z, 3 is the inner box.
fn corners_of_boxes(outer: [i64; 3], inner: [i64; 3]) -> Vec<[i64; 3]> {
    let at = |number: usize, half: [i64; 3]| {
        [0, 1, 2].map(|axis| if number >> axis & 1 == 1 { half[axis] } else { -half[axis] })
    };
    (0..8).map(|number| at(number, outer)).chain((0..8).map(|number| at(number, inner))).collect()
}

/// The walls of the outer box with a tunnel of the inner box's width along an axis.
fn tunnel(vertices: &[[i64; 3]], axis: usize) -> Vec<Vec<usize>> {
    let mut walls = Vec::new();
    for (across, along) in [((axis + 1) % 3, (axis + 2) % 3), ((axis + 2) % 3, (axis + 1) % 3)] {
        for side in [0, 1] {
            let corner = |at: usize, end: usize| side << across | at << along | end << axis;
            let [a, b, c, d] = [corner(0, 0), corner(1, 0), corner(1, 1), corner(0, 1)];
            let out = |length: i64| [0, 1, 2].map(|i| if i == across { length * (2 * side as i64 - 1) } else { 0 });
            walls.push(facing(vertices, [a, b, c, d], out(1)));
            walls.push(facing(vertices, [a, b, c, d].map(|corner| corner + 8), out(-1)));
            let end = |sign: i64| [0, 1, 2].map(|i| if i == axis { sign } else { 0 });
            walls.push(facing(vertices, [a, b, b + 8, a + 8], end(-1)));
            walls.push(facing(vertices, [c, d, d + 8, c + 8], end(1)));
        }
    }
    walls
}

/// The corners in the direction in which their normal goes with the given one.
fn facing(vertices: &[[i64; 3]], corners: [usize; 4], out: [i64; 3]) -> Vec<usize> {
    let [p, q, r] = [0, 1, 2].map(|i| vertices[corners[i]]);
    let less = |a: [i64; 3], b: [i64; 3]| [a[0] - b[0], a[1] - b[1], a[2] - b[2]];
    let (u, v) = (less(q, p), less(r, p));
    let normal = [u[1] * v[2] - u[2] * v[1], u[2] * v[0] - u[0] * v[2], u[0] * v[1] - u[1] * v[0]];
    let along: i64 = (0..3).map(|i| normal[i] * out[i]).sum();
    if along > 0 {
        corners.to_vec()
    } else {
        corners.iter().rev().copied().collect()
    }
}

pub fn refused(drawing: Drawing, number: Number, place: u64) -> Known {
    (drawing, Conversion::Refused(Refusal { number, place }))
}

/// The solids of a report.
pub fn solids(conversion: &Conversion) -> &[Solid] {
    match conversion {
        Conversion::Report { solids, .. } => solids,
        _ => &[],
    }
}

/// All that have solids.
pub fn all() -> Vec<Known> {
    vec![a_box(), l_shape(), octahedron(), frame(), nested_cubes()]
}
