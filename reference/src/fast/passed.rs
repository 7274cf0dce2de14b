//! The drawing rules 3 to 16, one after the other.
use super::cover::candidates;
use super::drawing::Drawing;
use super::loops::{find_loops, Loop};
use crate::numbers::*;
use crate::source::Source;

/// What the drawing rules, 3 to 16, let through.
pub struct Passed {
    pub drawing: Drawing,
    pub loops: Vec<Loop>,
    pub candidates: Vec<Loop>,
}

pub fn drawing_rules(source: Source) -> Result<Passed, Refusal> {
    let drawing = Drawing::read(source)?;
    drawing.rules_11_to_14()?;
    let Some(loops) = find_loops(&drawing) else { return refuse(MANY_LOOPS, 0) };
    let candidates = candidates(&drawing, &loops);
    if candidates.len() > MOST_CANDIDATES {
        return refuse(MANY_CANDIDATES, 0);
    }
    Ok(Passed { drawing, loops, candidates })
}
