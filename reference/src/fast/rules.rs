//! Drawing rules 11 to 14.
use super::drawing::{Drawing, Point, EDGE_ROOM};
use super::sets::{first, Members};
use crate::numbers::*;
use crate::vector::{cross, dot, sub};

/// Whether each of two edges shares a point with the other one off its own ends.
struct Meet {
    first: bool,
    second: bool,
}

/// An edge as its two vertex numbers.
type Ends = (usize, usize);

impl Drawing {
    pub fn rules_11_to_14(&self) -> Result<(), Refusal> {
        let at = &self.at[..self.vertices];
        for (v, place) in at.iter().enumerate() {
            if at[v + 1..].contains(place) {
                return refuse(SAME_PLACE, v);
            }
        }
        if let Some(v) = self.near[..self.vertices].iter().position(|near| *near == 0) {
            return refuse(LOOSE_VERTEX, v);
        }
        if let Some(e) = self.edge_meets() {
            return refuse(EDGE_MEETS, e);
        }
        match first(self.vertices) & !self.reached_from_0() {
            0 => Ok(()),
            apart => refuse(APART, apart.trailing_zeros() as usize),
        }
    }

    /// The lowest edge that shares a point with another one off its own ends. (Every vertex is on some edge by now.)
    fn edge_meets(&self) -> Option<usize> {
        let mut boxes = [([0; 3], [0; 3]); EDGE_ROOM];
        for (e, b) in boxes[..self.edges].iter_mut().enumerate() {
            *b = bounds(&self.at, self.ends(e));
        }
        let mut lowest = self.edges;
        for e in 0..self.edges {
            if e >= lowest {
                break;
            }
            for f in e + 1..self.edges {
                if boxes_meet(&boxes[e], &boxes[f]) {
                    let meet = meet(&self.at, self.ends(e), self.ends(f));
                    if meet.first {
                        lowest = lowest.min(e);
                    }
                    if meet.second {
                        lowest = lowest.min(f);
                    }
                }
            }
        }
        (lowest < self.edges).then_some(lowest)
    }

    fn reached_from_0(&self) -> u64 {
        let (mut reached, mut waiting) = (1u32, 1u32);
        while waiting != 0 {
            let near = Members(waiting as u64).fold(0, |near, v| near | self.near[v]);
            waiting = near & !reached;
            reached |= near;
        }
        reached as u64
    }
}

/// Do two edges between these places share a point that isn't a common end? An edge may be a single vertex.
pub fn edges_meet(at: &[Point], e: Ends, f: Ends) -> bool {
    let meet = meet(at, e, f);
    boxes_meet(&bounds(at, e), &bounds(at, f)) && (meet.first || meet.second)
}

#[inline]
fn bounds(at: &[Point], (a, b): Ends) -> (Point, Point) {
    (std::array::from_fn(|k| at[a][k].min(at[b][k])), std::array::from_fn(|k| at[a][k].max(at[b][k])))
}

#[inline]
fn boxes_meet(a: &(Point, Point), b: &(Point, Point)) -> bool {
    (0..3).all(|k| a.0[k] <= b.1[k] && b.0[k] <= a.1[k])
}

/// For edges whose boxes meet; different vertices are at different places.
fn meet(at: &[Point], (a, b): Ends, (c, d): Ends) -> Meet {
    let ends = [(a, b, c, d), (a, b, d, c), (b, a, c, d), (b, a, d, c)];
    if let Some((s, x, _, y)) = ends.into_iter().find(|(s, _, t, _)| s == t) {
        // One end in common: they meet elsewhere only where they run the same way.
        let (x, y) = (sub(at[x], at[s]), sub(at[y], at[s]));
        let both = dot(x, y) > 0 && cross(x, y) == [0; 3];
        return Meet { first: both, second: both };
    }
    let (u, w, r) = (sub(at[b], at[a]), sub(at[d], at[c]), sub(at[c], at[a]));
    let n = cross(u, w);
    if n == [0; 3] {
        // On one line, boxes that meet make a common stretch: no two ends are at one place.
        let both = cross(u, r) == [0; 3];
        return Meet { first: both, second: both };
    }
    if dot(r, n) != 0 {
        return Meet { first: false, second: false };
    }
    // The common point of the two lines is at s / d along u and at t / d along w.
    let k = if n[0] != 0 { 0 } else { 1 + (n[1] == 0) as usize };
    let (i, j) = ((k + 1) % 3, (k + 2) % 3);
    let sign = n[k].signum();
    let (d, s, t) = (sign * n[k], sign * (r[i] * w[j] - r[j] * w[i]), sign * (r[i] * u[j] - r[j] * u[i]));
    let on = |x: i64| 0 <= x && x <= d;
    let within = |x: i64| 0 < x && x < d;
    Meet { first: within(s) && on(t), second: within(t) && on(s) }
}
