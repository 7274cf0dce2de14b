//! Pairs of polygons in space, to try clash and cover on.
use super::flat::{star, Spot};
use super::maker::Place;
use super::rng::Rng;
use super::sheets::counted_drawing;
use crate::fast;
use crate::source::Source;
use crate::vector::{add, cross, scale, sub};

type Polygon = Vec<Place>;

/// Two different simple polygons, each in a plane of its own or both in one.
pub fn any_pair(r: &mut Rng) -> (Polygon, Polygon) {
    let (mut f, mut g) = loop {
        let pair = match r.below(8) {
            0 => two_loops(r),
            1 => Some((triangle(r), triangle(r))),
            2 => Some((tilted_star(r), triangle(r))),
            3 | 4 => Some(in_one_plane(r)),
            _ => Some(with_two_corners_shared(r)),
        };
        match pair {
            Some((f, g)) if !one_loop(&f, &g) => break (f, g),
            _ => {}
        }
    };
    for polygon in [&mut f, &mut g] {
        let start = r.below(polygon.len());
        polygon.rotate_left(start);
        if r.chance(50) {
            polygon.reverse();
        }
    }
    if r.chance(50) {
        (g, f)
    } else {
        (f, g)
    }
}

fn one_loop(f: &Polygon, g: &Polygon) -> bool {
    let turned: Polygon = g.iter().rev().copied().collect();
    let starts = |k: usize| [&f[k..], &f[..k]].concat();
    (0..f.len()).any(|k| starts(k) == *g || starts(k) == turned)
}

/// Two loops of one drawing.
fn two_loops(r: &mut Rng) -> Option<(Polygon, Polygon)> {
    let d = counted_drawing(r, 16);
    let (xyz, ends) = d.lists();
    let fast = fast::Drawing::read(Source::Lists(&xyz, &ends)).ok()?;
    fast.rules_11_to_14().ok()?;
    let loops = fast::find_loops(&fast)?;
    if loops.len() < 2 {
        return None;
    }
    let mut pick = || loops[r.below(loops.len())].ring().iter().map(|v| d.vertices[*v as usize]).collect();
    Some((pick(), pick()))
}

fn small_place(r: &mut Rng) -> Place {
    std::array::from_fn(|_| r.range(-3, 3))
}

fn triangle(r: &mut Rng) -> Polygon {
    loop {
        let p = [small_place(r), small_place(r), small_place(r)];
        if cross(sub(p[1], p[0]), sub(p[2], p[0])) != [0; 3] {
            return p.to_vec();
        }
    }
}

/// A plane with whole coordinates of its own.
struct Tilt {
    origin: Place,
    u: Place,
    v: Place,
}

impl Tilt {
    fn any(r: &mut Rng) -> Tilt {
        let t = triangle(r);
        Tilt { origin: t[0], u: sub(t[1], t[0]), v: sub(t[2], t[0]) }
    }

    fn places(&self, spots: &[Spot]) -> Polygon {
        let place = |s: &Spot| add(self.origin, add(scale(s[0], self.u), scale(s[1], self.v)));
        spots.iter().map(place).collect()
    }
}

fn small_star(r: &mut Rng) -> Vec<Spot> {
    let corners = r.count(3, 7);
    star(r, corners, 2)
}

fn tilted_star(r: &mut Rng) -> Polygon {
    Tilt::any(r).places(&small_star(r))
}

/// A star and another one, or a triangle of three of its own corners.
fn in_one_plane(r: &mut Rng) -> (Polygon, Polygon) {
    let tilt = Tilt::any(r);
    let f = small_star(r);
    let p = [r.pick(&f), r.pick(&f), r.pick(&f)];
    let area = (p[1][0] - p[0][0]) * (p[2][1] - p[0][1]) - (p[1][1] - p[0][1]) * (p[2][0] - p[0][0]);
    let g = if area != 0 { p.to_vec() } else { small_star(r) };
    (tilt.places(&f), tilt.places(&g))
}

/// Polygons with corners at (0, 0) and (1, 0): the way from one to the other runs inside or outside, from corners
/// below, at and above 180 degrees.
const BETWEEN: [&[Spot]; 8] = [
    &[[0, -1], [1, -1], [1, 0], [1, 1], [0, 1], [0, 0]],
    &[[0, 0], [1, -1], [1, 0], [0, 1]],
    &[[1, 0], [-1, 1], [0, 0], [-1, -1]],
    &[[0, 0], [2, 1], [1, 0], [2, -1]],
    &[[0, 0], [1, 1], [1, 0], [2, 3]],
    &[[0, -1], [1, 0], [0, 1], [0, 0]],
    &[[0, 0], [1, 0], [1, 1], [0, 1]],
    &[[-1, 1], [0, 0], [-1, -1], [2, -1], [1, 0], [2, 1]],
];

fn with_two_corners_shared(r: &mut Rng) -> (Polygon, Polygon) {
    let f = Tilt::any(r).places(r.pick(&BETWEEN));
    loop {
        let (from, to, other) = (r.pick(&f), r.pick(&f), small_place(r));
        let tilt = Tilt { origin: from, u: sub(to, from), v: sub(other, from) };
        if cross(tilt.u, tilt.v) != [0; 3] {
            return (f, tilt.places(r.pick(&BETWEEN)));
        }
    }
}
