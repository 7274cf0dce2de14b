//! Drawings of bodies: prisms, pyramids, frames, chains, boxes with dents, bodies of revolution, grids.
use super::flat::*;
use super::known::*;
use super::maker::*;
use crate::drawing::Drawing;

pub fn layers(rings: &[Vec<Place>]) -> Drawing {
    let mut m = Maker::default();
    m.layers(rings);
    m.done()
}

pub fn prism(spots: &[Spot], height: i64, shift: Spot) -> Drawing {
    layers(&[lift(spots, 0, 1, [0, 0]), lift(spots, height, 1, shift)])
}

/// A base and one or two points joined to all its corners.
pub fn pyramid(base: &[Place], tops: &[Place]) -> Drawing {
    let mut m = Maker::default();
    m.ring(base);
    tops.iter().for_each(|top| m.fan(*top, base));
    m.done()
}

/// A ring-shaped body: an outer and an inner polygon, above and below, all joined.
pub fn frame(inner: &[Spot], times: i64, height: i64, slant: i64) -> Drawing {
    let ring = |k: i64, z: i64| lift(inner, z, k, [0, 0]);
    let rings = [ring(times, 0), ring(times, height), ring(1, height - slant), ring(1, slant)];
    let mut m = Maker::default();
    m.layers(&rings);
    m.join(&rings[3], &rings[0]);
    m.done()
}

/// Boxes in a row, of the lengths given.
pub fn box_chain(lengths: &[i64], y: i64, z: i64) -> Drawing {
    let ring = |x: i64| vec![[x, 0, 0], [x, y, 0], [x, y, z], [x, 0, z]];
    let mut rings = vec![ring(0)];
    for length in lengths {
        let x = rings[rings.len() - 1][0][0] + length;
        rings.push(ring(x));
    }
    layers(&rings)
}

/// Square cross sections of different sizes and offsets, one above the other.
pub fn frusta(sections: &[(i64, i64)]) -> Drawing {
    let square = [[1, 1], [-1, 1], [-1, -1], [1, -1]];
    let ring = |(k, (size, shift)): (usize, &(i64, i64))| lift(&square, 10 * k as i64, *size, [*shift, 0]);
    layers(&sections.iter().enumerate().map(ring).collect::<Vec<_>>())
}

/// Rings of (size, height) round the z axis, and two poles.
pub fn revolved(corners: usize, rings: &[(i64, i64)], poles: Option<(i64, i64)>) -> Drawing {
    let rings: Vec<Vec<Place>> = rings.iter().map(|(k, z)| lift(&round(corners), *z, *k, [0, 0])).collect();
    let mut m = Maker::default();
    m.layers(&rings);
    if let Some((low, high)) = poles {
        m.fan([0, 0, low], &rings[0]);
        m.fan([0, 0, high], &rings[rings.len() - 1]);
    }
    m.done()
}

/// Octahedra in a row that share corners.
pub fn octahedron_chain(count: i64) -> Drawing {
    let mut m = Maker::default();
    (0..count).for_each(|k| m.drawing(&octahedron(), [20 * k, 0, 0]));
    m.done()
}

/// A cube whose top is a dent down to a point: at height 0 that touches the bottom, below it pierces it.
pub fn dented(point: Place) -> Drawing {
    let cube = cube();
    let mut m = Maker::default();
    m.drawing(&cube, [0; 3]);
    m.fan(point, &cube.vertices[4..]);
    m.done()
}

/// Lattice points joined along the axes.
pub fn grid(nx: i64, ny: i64, nz: i64) -> Drawing {
    let mut m = Maker::default();
    for (x, y, z) in (0..nx).flat_map(|x| (0..ny).flat_map(move |y| (0..nz).map(move |z| (x, y, z)))) {
        for next in [[x + 1, y, z], [x, y + 1, z], [x, y, z + 1]] {
            if next[0] < nx && next[1] < ny && next[2] < nz {
                m.line([10 * x, 10 * y, 10 * z], next.map(|c| 10 * c));
            }
        }
    }
    m.done()
}

/// A flat grid, with a point over it that is joined to its border.
pub fn plate(nx: i64, ny: i64, top: bool) -> Drawing {
    let flat = grid(nx, ny, 1);
    let mut m = Maker::default();
    m.drawing(&flat, [0; 3]);
    if top {
        let on_border = |p: &Place| p[0] == 0 || p[1] == 0 || p[0] == 10 * (nx - 1) || p[1] == 10 * (ny - 1);
        let border: Vec<Place> = flat.vertices.iter().copied().filter(on_border).collect();
        m.fan([5 * (nx - 1) + 1, 5 * (ny - 1) + 2, 37], &border);
    }
    m.done()
}
