//! Families of one body each: prisms, pyramids, boxes, frames, bodies of revolution, cells.
use super::bodies::*;
use super::cells::*;
use super::flat::*;
use super::known::*;
use super::maker::*;
use super::rng::Rng;
use crate::drawing::Drawing;

pub fn named(r: &mut Rng) -> Drawing {
    let all = [tetrahedron, cube, octahedron, nested_cubes, triangle_with_centre, two_tetrahedra, notched_pentagon];
    r.pick::<fn() -> Drawing>(&all)()
}

pub fn one_edge_short(r: &mut Rng) -> Drawing {
    cube_without(r.below(12))
}

pub fn star_prism(r: &mut Rng) -> Drawing {
    let corners = r.count(3, 13);
    prism(&star(r, corners, 12), r.range(1, 9), [r.range(-3, 3), r.range(-3, 3)])
}

pub fn star_pyramid(r: &mut Rng) -> Drawing {
    let corners = r.count(3, 13);
    let base = lift(&star(r, corners, 9), 0, 1, [0, 0]);
    let tops = [[r.range(-3, 3), r.range(-3, 3), r.range(1, 9)], [0, 0, -r.range(1, 9)]];
    pyramid(&base, &tops[..r.count(1, 2)])
}

pub fn convex_frustum(r: &mut Rng) -> Drawing {
    let base = convex(r.count(3, 16));
    layers(&[lift(&base, 0, 1, [0, 0]), lift(&base, 5, r.range(1, 3), [r.range(-2, 2), 0])])
}

pub fn any_box(r: &mut Rng) -> Drawing {
    box_of([0; 3].map(|_| r.range(-9, 0)), [0; 3].map(|_| r.range(1, 9)))
}

pub fn any_box_chain(r: &mut Rng) -> Drawing {
    let lengths: Vec<i64> = (0..r.count(1, 8)).map(|_| r.range(1, 5)).collect();
    box_chain(&lengths, r.range(1, 4), r.range(1, 4))
}

pub fn any_frusta(r: &mut Rng) -> Drawing {
    frusta(&(0..r.count(2, 8)).map(|_| (r.range(1, 4), r.range(-1, 1))).collect::<Vec<_>>())
}

pub fn frames(r: &mut Rng) -> Drawing {
    let corners = r.count(3, 8);
    frame(&star(r, corners, 5), 3, r.range(3, 9), r.range(0, 1))
}

pub fn angular_prism(r: &mut Rng) -> Drawing {
    prism(r.pick(&ANGULAR), r.range(1, 6), [0, 0])
}

pub fn angular_pyramid(r: &mut Rng) -> Drawing {
    pyramid(&lift(r.pick(&ANGULAR), 0, 1, [0, 0]), &[[1, 1, r.range(1, 6)]])
}

pub fn any_revolved(r: &mut Rng) -> Drawing {
    let rings: Vec<(i64, i64)> = (0..r.range(1, 6)).map(|k| (r.range(1, 3), 3 * k)).collect();
    let poles = (-r.range(1, 4), 3 * rings.len() as i64 + r.range(0, 3));
    revolved(r.pick(&[3, 4, 4, 5, 6, 8]), &rings, r.chance(80).then_some(poles))
}

pub fn cells_skin(r: &mut Rng) -> Drawing {
    let count = r.count(2, 7);
    skin(&random_cells(r, count), true)
}

pub fn cells_straightened(r: &mut Rng) -> Drawing {
    let count = r.count(2, 8);
    straightened(&skin(&random_cells(r, count), false))
}

pub fn dents(r: &mut Rng) -> Drawing {
    dented([r.range(1, 9), r.range(1, 9), r.pick(&[0, 0, 0, -1, 1, 4, 10])])
}

/// Six-sided bodies of revolution, which also allow walls through the axis: between poles that are dented or pointed,
/// rule C alone tells that these cross, at corners above or below 180 degrees.
pub fn hexagon_bodies(r: &mut Rng) -> Drawing {
    let high = r.range(4, 7);
    let poles = r.pick(&[(1, high - 1), (2, 3), (1, high + 2), (-2, high + 1)]);
    revolved(6, &[(r.range(1, 3), 0), (r.range(1, 3), high)], Some(poles))
}

/// Bodies of revolution with dented, flat or pointed poles: rule C decides at corners above, at and below 180 degrees.
pub fn dented_poles(r: &mut Rng) -> Drawing {
    let count = r.range(2, 3);
    let corners = if count == 2 { r.pick(&[6, 6, 6, 4, 5, 3]) } else { r.pick(&[6, 4]) };
    let rings: Vec<(i64, i64)> = (0..count).map(|k| (r.range(2, 3), 5 * k)).collect();
    let top = 5 * (count - 1);
    revolved(corners, &rings, Some((r.pick(&[1, 0, 0, -2]), top + r.pick(&[-1, 0, 0, 2]))))
}

/// A prism with a chord between two corners of its base.
pub fn chords(r: &mut Rng) -> Drawing {
    let mut d = angular_prism(r);
    let corners = d.vertices.len() / 2;
    let from = r.below(corners);
    let edge = (from, (from + r.count(2, corners - 2)) % corners);
    d.edges.push(edge);
    ordered(d.vertices, d.edges)
}

/// A prism in a prism, joined below only: a ring-shaped floor in pieces.
pub fn hollow_prisms(r: &mut Rng) -> Drawing {
    let corners = r.count(3, 5);
    let base = star(r, corners, 4);
    let ring = |k: i64, z: i64| lift(&base, z, k, [0, 0]);
    let mut m = Maker::default();
    m.layers(&[ring(1, r.range(2, 6)), ring(1, 0), ring(3, 0), ring(3, r.range(7, 9))]);
    m.done()
}

/// Walls of 11 to 14 corners, some of them on one line.
pub fn long_outlines(r: &mut Rng) -> Drawing {
    let corners = r.count(11, 14);
    let mut spots = vec![[0, 0]];
    spots.extend((0..corners as i64 - 2).map(|k| [k + 1, k % 2 * r.range(0, 2) - 3]));
    spots.push([corners as i64, 0]);
    prism(&spots, r.range(1, 5), [0, 0])
}
