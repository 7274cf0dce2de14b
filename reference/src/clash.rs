//! Clash rules A, B and C of two faces.
use crate::polygon::*;
use crate::vector::*;

/// A, one way round: an edge of f has its ends strictly on opposite sides of g's plane and pierces g strictly inside.
pub fn rule_a(f: &[Point], g: &[Point]) -> bool {
    sides(f).any(|(p, q)| {
        let (hp, hq) = (height(g, p), height(g, q));
        if hp.signum() * hq.signum() != -1 {
            return false;
        }
        let (numerator, denominator) = piercing_point((p, hp), (q, hq));
        lies(g, numerator, denominator) == Lies::Inside
    })
}

/// B, one way round: a corner of f is strictly inside g.
pub fn rule_b(f: &[Point], g: &[Point]) -> bool {
    f.iter().any(|p| height(g, *p) == 0 && lies(g, *p, 1) == Lies::Inside)
}

/// C: the planes differ, u and v are corners of both, and u to v points strictly inside the angle at u of both.
pub fn rule_c(f: &[Point], g: &[Point]) -> bool {
    if one_plane(f, g) {
        return false;
    }
    let inside = |polygon: &[Point], u: Point, v: Point| {
        let k = polygon.iter().position(|p| *p == u).expect("a corner of both");
        inside_angle(polygon, k, sub(v, u))
    };
    let shared: Vec<Point> = f.iter().copied().filter(|p| g.contains(p)).collect();
    shared.iter().any(|u| shared.iter().any(|v| u != v && inside(f, *u, *v) && inside(g, *u, *v)))
}

/// The letter of the first rule that holds, either way round.
pub fn clash(f: &[Point], g: &[Point]) -> Option<char> {
    if rule_a(f, g) || rule_a(g, f) {
        Some('A')
    } else if rule_b(f, g) || rule_b(g, f) {
        Some('B')
    } else if rule_c(f, g) {
        Some('C')
    } else {
        None
    }
}
