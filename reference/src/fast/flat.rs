//! A loop seen along an axis, counterclockwise: on which side of its plane a point is, and whether it is inside.
use super::drawing::{Drawing, Point};
use super::loops::LONGEST;
use crate::vector::{add, cross, dot, sub};

pub struct Flat {
    normal: Point,
    offset: i64,
    axes: (usize, usize),
    corners: [(i64, i64); LONGEST],
    count: usize,
}

/// The sum of a ring's cross products.
pub fn normal(d: &Drawing, ring: &[u8]) -> Point {
    let origin = d.at[ring[0] as usize];
    let from_origin = |v: &u8| sub(d.at[*v as usize], origin);
    ring.windows(2).fold([0; 3], |sum, pair| add(sum, cross(from_origin(&pair[0]), from_origin(&pair[1]))))
}

/// A ring's share of six volumes.
pub fn six_volumes(d: &Drawing, ring: &[u8]) -> i64 {
    dot(d.at[ring[0] as usize], normal(d, ring))
}

/// Twice the signed area of the triangle 0, a, b.
#[inline]
fn turn(a: (i64, i64), b: (i64, i64)) -> i64 {
    a.0 * b.1 - a.1 * b.0
}

impl Flat {
    pub fn new(d: &Drawing, ring: &[u8]) -> Flat {
        let normal = normal(d, ring);
        let dropped = if normal[2] != 0 { 2 } else { (normal[1] != 0) as usize };
        let (i, j) = ((dropped + 1) % 3, (dropped + 2) % 3);
        let axes = if normal[dropped] > 0 { (i, j) } else { (j, i) };
        let offset = dot(normal, d.at[ring[0] as usize]);
        let mut flat = Flat { normal, offset, axes, corners: [(0, 0); LONGEST], count: ring.len() };
        for (corner, v) in flat.corners.iter_mut().zip(ring) {
            *corner = (d.at[*v as usize][axes.0], d.at[*v as usize][axes.1]);
        }
        flat
    }

    #[inline]
    pub fn see(&self, p: Point) -> (i64, i64) {
        (p[self.axes.0], p[self.axes.1])
    }

    /// Above zero on one side of the plane, below on the other.
    #[inline]
    pub fn height(&self, p: Point) -> i64 {
        dot(self.normal, p) - self.offset
    }

    /// Is the point (x, y) / denominator, which isn't on the border, inside? Its ray crosses an odd number of sides.
    #[inline]
    pub fn inside(&self, (x, y): (i64, i64), denominator: i64) -> bool {
        let mut inside = false;
        let mut a = self.corners[self.count - 1];
        for b in self.corners[..self.count].iter().copied() {
            if (a.1 * denominator <= y) != (b.1 * denominator <= y) {
                let to_point = (x - a.0 * denominator, y - a.1 * denominator);
                inside ^= (turn((b.0 - a.0, b.1 - a.1), to_point) > 0) == (b.1 > a.1);
            }
            a = b;
        }
        inside
    }

    /// Does the direction from corner k to corner m point strictly inside the angle at k?
    pub fn inside_angle(&self, k: usize, m: usize) -> bool {
        let from = self.corners[k];
        let to = |m: usize| (self.corners[m].0 - from.0, self.corners[m].1 - from.1);
        let next = to(if k + 1 == self.count { 0 } else { k + 1 });
        let before = to(if k == 0 { self.count - 1 } else { k - 1 });
        let (after_next, before_last) = (turn(next, to(m)) > 0, turn(to(m), before) > 0);
        match turn(next, before).signum() {
            1 => after_next && before_last,
            -1 => after_next || before_last,
            _ => after_next,
        }
    }
}
