//! Cover, and the candidates: the loops that cover no other loop (refusal 16).
use crate::drawing::{Drawing, Loop};
use crate::numbers::*;
use crate::polygon::*;
use crate::vector::*;

/// Does polygon a cover polygon b, taken as different ones?
pub fn polygon_covers(a: &[Point], b: &[Point]) -> bool {
    // Twice the midpoint is whole.
    one_plane(a, b) && sides(b).all(|(p, q)| lies(a, add(p, q), 2) != Lies::Outside)
}

pub fn covers(d: &Drawing, a: &Loop, b: &Loop) -> bool {
    a != b && polygon_covers(&d.points(a), &d.points(b))
}

/// The candidates in loop order.
pub fn find_candidates(d: &Drawing, loops: &[Loop], most: usize) -> Result<Vec<Loop>, Refusal> {
    let candidates: Vec<Loop> = loops.iter().filter(|a| !loops.iter().any(|b| covers(d, a, b))).cloned().collect();
    if candidates.len() > most {
        return refuse(MANY_CANDIDATES, 0);
    }
    Ok(candidates)
}
