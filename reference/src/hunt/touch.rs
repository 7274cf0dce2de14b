//! Whether a face meets the inside of another: exact, in fractions, for simple polygons within document 01's range.
use crate::clash::{rule_a, rule_b};
use crate::polygon::*;
use crate::vector::*;

/// How a face g meets the inside of a face f.
#[derive(Clone, Copy, Debug, PartialEq, Eq, PartialOrd, Ord)]
pub enum Touch {
    /// A corner of g is there.
    Corner,
    /// A side of g pierces it.
    Pierced,
    /// A side of g runs there, in f's plane.
    Side,
    /// The planes are one, no border of g is there, and all of it is inside g.
    Overlap,
    /// The planes differ, no border of g is there, and the two insides meet.
    Cross,
}

/// A numerator and a denominator above zero.
type Fraction = (Point, i128);

/// The first way in which face g meets the inside of f, if it does.
pub fn touch(f: &[Point], g: &[Point]) -> Option<Touch> {
    if one_side(f, g) {
        None
    } else if rule_b(g, f) {
        Some(Touch::Corner)
    } else if rule_a(g, f) {
        Some(Touch::Pierced)
    } else if sides(g).any(|side| runs_inside(f, side)) {
        Some(Touch::Side)
    } else if one_plane(f, g) {
        overlap(f, g).then_some(Touch::Overlap)
    } else {
        insides_cross(f, g).then_some(Touch::Cross)
    }
}

/// Is g strictly on one side of f's plane? Then they have no point in common.
fn one_side(f: &[Point], g: &[Point]) -> bool {
    let n = normal(f);
    let side = |p: &Point| dot(n, sub(*p, f[0])).signum();
    g.iter().all(|p| side(p) == 1) || g.iter().all(|p| side(p) == -1)
}

/// Has a segment in f's plane a point inside f? The lines along f's sides cut it into parts that are each all inside,
/// all on the border or all outside.
fn runs_inside(f: &[Point], (p, q): (Point, Point)) -> bool {
    if height(f, p) != 0 || height(f, q) != 0 {
        return false;
    }
    let n = normal(f);
    let mut cuts = vec![(p, 1), (q, 1)];
    for (a, b) in sides(f) {
        let across = cross(sub(b, a), n);
        cuts.extend(passing((p, dot(across, sub(p, a))), (q, dot(across, sub(q, a)))));
    }
    between(cuts).any(|at| inside(f, at))
}

/// Of two faces in one plane, with no border of g inside f: the inside of f is all inside g or all outside it, so any
/// one point of it tells. In a triangulation of f the middle of each triangle is one, so some three corners have one.
fn overlap(f: &[Point], g: &[Point]) -> bool {
    let middle = |i: usize, j: usize, k: usize| (add(add(f[i], f[j]), f[k]), 3);
    let mut middles = (0..f.len()).flat_map(|i| (0..i).flat_map(move |j| (0..j).map(move |k| middle(i, j, k))));
    middles.find(|at| inside(f, *at)).is_some_and(|at| inside(g, at))
}

/// Of two faces in different planes, with no border of g inside f: do the insides meet? The border of f cuts the
/// planes' common line into parts, and one that is inside f is all inside g or all outside it.
fn insides_cross(f: &[Point], g: &[Point]) -> bool {
    between(cuts(f, g)).any(|at| inside(f, at) && inside(g, at))
}

/// Where the border of f meets the plane of g; of a side in that plane the ends.
fn cuts(f: &[Point], g: &[Point]) -> Vec<Fraction> {
    let heights: Vec<(Point, i128)> = f.iter().map(|p| (*p, height(g, *p))).collect();
    let corners = heights.iter().filter(|(_, height)| *height == 0).map(|(p, _)| (*p, 1));
    corners.chain(sides(&heights).filter_map(|(p, q)| passing(p, q))).collect()
}

/// Where a segment passes from height below to height above zero, or back.
fn passing(p: (Point, i128), q: (Point, i128)) -> Option<Fraction> {
    (p.1.signum() * q.1.signum() == -1).then(|| piercing_point(p, q))
}

/// A point strictly between each two neighbours of some points on one line.
fn between(mut points: Vec<Fraction>) -> impl Iterator<Item = Fraction> {
    // On one line the order of the places, coordinate by coordinate, is that along the line.
    points.sort_by(|(p, m), (q, n)| scale(*n, *p).cmp(&scale(*m, *q)));
    // The middle would do as well, but its numbers are too large for `lies`.
    (1..points.len()).map(move |k| (add(points[k - 1].0, points[k].0), points[k - 1].1 + points[k].1))
}

fn inside(polygon: &[Point], (numerator, denominator): Fraction) -> bool {
    lies(polygon, numerator, denominator) == Lies::Inside
}
