//! Drawings that allow many selections: bodies with centres, mirrored ones, several at one vertex, opposite couples.
use super::bodies::revolved;
use super::known::*;
use super::maker::*;
use crate::drawing::Drawing;
use crate::vector::{add, sub};

/// A double pyramid with its centre joined to every vertex, or to every other one.
pub fn centred_bipyramid(corners: usize, step: usize) -> Drawing {
    let d = revolved(corners, &[(1, 0)], Some((-1, 1)));
    let mut m = Maker::default();
    m.drawing(&d, [0; 3]);
    m.fan([0; 3], &d.vertices.iter().copied().step_by(step).collect::<Vec<_>>());
    m.done()
}

/// A body of revolution with the points of its axis joined to the rings and to each other.
pub fn cored(corners: usize, rings: &[(i64, i64)]) -> Drawing {
    let (low, high) = (rings[0].1 - 1, rings[rings.len() - 1].1 + 1);
    let d = revolved(corners, rings, Some((low, high)));
    let mut m = Maker::default();
    m.drawing(&d, [0; 3]);
    let mut before = [0, 0, low];
    for (_, z) in rings {
        let ring: Vec<Place> = d.vertices.iter().copied().filter(|p| p[2] == *z && p[..2] != [0, 0]).collect();
        m.fan([0, 0, *z], &ring);
        m.line(before, [0, 0, *z]);
        before = [0, 0, *z];
    }
    m.line(before, [0, 0, high]);
    m.done()
}

/// Cubes in a row, each with its centre joined to its corners.
pub fn centred_cubes(count: i64) -> Drawing {
    let mut m = Maker::default();
    for k in 0..count {
        let one = box_of([4 * k, 0, 0], [4 * k + 4, 4, 4]);
        m.drawing(&one, [0; 3]);
        m.fan([4 * k + 2, 2, 2], &one.vertices);
    }
    m.done()
}

/// The same with cross sections of different sizes, so that no two walls are in one plane.
pub fn centred_frusta(sizes: &[i64]) -> Drawing {
    let ring = |(k, s): (usize, &i64)| {
        let x = 8 * k as i64;
        vec![[x, *s, *s], [x, -s, *s], [x, -s, -s], [x, *s, -s]]
    };
    let rings: Vec<Vec<Place>> = sizes.iter().enumerate().map(ring).collect();
    let mut m = Maker::default();
    m.layers(&rings);
    for pair in rings.windows(2) {
        let centre = [pair[0][0][0] + 4, 1, 0];
        m.fan(centre, &pair[0]);
        m.fan(centre, &pair[1]);
    }
    m.done()
}

/// An octahedron with its centre, and its image in a face, with its centre too or not.
pub fn mirrored_octahedra(second_centre: bool) -> Drawing {
    let one = octahedron_of(3);
    let mirror = |p: &Place| p.map(|c| c - 2 * (p[0] + p[1] + p[2] - 3) / 3);
    let image = Drawing { vertices: one.vertices.iter().map(mirror).collect(), edges: one.edges.clone() };
    let mut m = Maker::default();
    m.drawing(&one, [0; 3]);
    m.fan([0; 3], &one.vertices);
    m.drawing(&image, [0; 3]);
    if second_centre {
        m.fan(mirror(&[0; 3]), &image.vertices);
    }
    m.done()
}

/// Pieces of which each shares a vertex with the next: their selections multiply, and (ii) fails.
pub fn at_one_vertex(pieces: &[Drawing]) -> Drawing {
    let mut m = Maker::default();
    let mut end = [0; 3];
    for d in pieces {
        let low = d.vertices.iter().min().copied().unwrap_or_default();
        let high = d.vertices.iter().max().copied().unwrap_or_default();
        let shift = sub(end, low);
        m.drawing(d, shift);
        end = add(high, shift);
    }
    m.done()
}

/// Two tetrahedra beside `points` points of which each is joined to each, and one triangle more or not: with 10 points
/// 128 or 129 loops, with 8 points 64 or 65 candidates.
pub fn exact_count(points: usize, one_more: bool) -> Drawing {
    let triangle = complete(&[[0, 0, 0], [5, 1, 0], [4, 2, 3]]);
    let pieces = [complete(&general(points)), tetrahedron(), tetrahedron(), triangle];
    at_one_vertex(&pieces[..3 + one_more as usize])
}

/// Points with their images in the origin, up to five couples, all joined but couples: triangles and parallelograms.
pub fn couples(count: usize) -> Drawing {
    let half = [[9, 1, 2], [-2, 8, 3], [1, -3, 7], [5, 6, 8], [-7, 4, 5]];
    all_but_couples(&half[..count].iter().flat_map(|p| [*p, p.map(|c| -c)]).collect::<Vec<_>>())
}

/// Four couples and a point joined to all: six candidates on every edge.
pub fn couples_and_top() -> Drawing {
    let d = couples(4);
    let mut m = Maker::default();
    m.drawing(&d, [0; 3]);
    m.fan([17, -23, 29], &d.vertices);
    m.done()
}

/// Two couples, two points that aren't joined, and three that are joined to all: 63 triangles, one parallelogram and
/// the most work of any drawing known.
pub fn most_work() -> Drawing {
    let places = [
        [3, 37, -17],
        [-31, 5, 11],
        [17, -23, 29],
        [-9, -1, -2],
        [9, 1, 2],
        [-2, 8, 3],
        [2, -8, -3],
        [1, -3, 7],
        [13, -11, -19],
    ];
    ordered(places.to_vec(), pairs(9, |a, b| a < 3 || (a - 1) / 2 != (b - 1) / 2))
}

/// Points of which no four are in one plane.
pub fn general(count: usize) -> Vec<Place> {
    let half = count as i64 / 2;
    (-half..count as i64 - half).map(|t| [t, t * t, t * t * t]).collect()
}

/// A drawing with a selection that meets (i) to (iii) and has no volume.
pub fn no_volume() -> Drawing {
    let d = revolved(8, &[(1, 0)], Some((-1, 1)));
    let mut m = Maker::default();
    m.drawing(&d, [0; 3]);
    m.fan([0; 3], &[[-1, 2, 0], [1, -2, 0], [0, 0, -1], [-2, -1, 0], [2, 1, 0]]);
    m.done()
}
