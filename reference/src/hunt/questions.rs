//! What is asked of a selection, and what can be found.
use super::pinched::pinched;
use super::tally::Tally;
use super::touch::{touch, Touch};
use super::winding::{faces_met, winding, Ray};
use crate::drawing::Loop;
use crate::gen::rng::Rng;
use crate::polygon::Point;
use crate::solids::{Fails, Table};
use crate::vector::scale;
use std::collections::BTreeSet;
use std::fmt;

/// Points are asked on a grid so many times as fine as the drawing's; 128 bits allow it in the whole range.
const FINENESS: i128 = 32;
/// Points asked of each solid, and rays from each point.
const POINTS: u32 = 40;
const RAYS: u32 = 3;
/// The most of a ray's direction along an axis.
const STEEPEST: i64 = 1_000;

/// What shows that a selection with (i), (ii) and (v) bounds no region.
#[derive(Clone, Copy, Debug, PartialEq, Eq, PartialOrd, Ord)]
pub enum Finding {
    /// (iii) fails.
    NoDirections,
    /// (iv) fails.
    NoVolume,
    /// A face meets the inside of another.
    Meets(Touch),
    /// A winding number that is neither 0 nor 1.
    Winding(i64),
    /// Two of them along two rays from one point.
    RaysDiffer,
    /// One that is odd along a ray that meets an even number of faces, or the reverse.
    ParityDiffers,
}

impl fmt::Display for Finding {
    fn fmt(&self, f: &mut fmt::Formatter) -> fmt::Result {
        let text = match self {
            Finding::NoDirections => "no directions",
            Finding::NoVolume => "no volume",
            Finding::Meets(Touch::Corner) => "a corner inside a face",
            Finding::Meets(Touch::Pierced) => "a side that pierces a face",
            Finding::Meets(Touch::Side) => "a side inside a face, in its plane",
            Finding::Meets(Touch::Overlap) => "a face inside a face, in its plane",
            Finding::Meets(Touch::Cross) => "faces that cross",
            Finding::Winding(number) => return write!(f, "winding number {number}"),
            Finding::RaysDiffer => "two winding numbers of one point",
            Finding::ParityDiffers => "a winding number and a number of faces met of which one is odd",
        };
        f.write_str(text)
    }
}

/// Asks everything of a selection that has (i) and (v). One that fails (ii) is none of those searched for.
pub fn ask(table: &Table, taken: &[usize], r: &mut Rng, tally: &mut Tally) -> BTreeSet<Finding> {
    let solid = match table.directed(taken) {
        Ok(solid) => solid,
        Err(Fails::Directions) => return BTreeSet::from([Finding::NoDirections]),
        Err(Fails::Volume) => return BTreeSet::from([Finding::NoVolume]),
        Err(_) => {
            tally.in_pieces += 1;
            return BTreeSet::new();
        }
    };
    tally.solid(taken.len(), pinched(&loops(table, taken), table.drawing.vertices.len()));
    let faces: Vec<Vec<Point>> = table.faces(taken, &solid.turned).collect();
    let mut findings = ask_points(&faces, r, tally);
    findings.extend(first_touch(&faces).map(Finding::Meets));
    findings
}

pub fn loops(table: &Table, taken: &[usize]) -> Vec<Loop> {
    taken.iter().map(|c| table.candidates[*c].clone()).collect()
}

fn first_touch(faces: &[Vec<Point>]) -> Option<Touch> {
    faces.iter().find_map(|f| faces.iter().filter(|g| *g != f).find_map(|g| touch(f, g)))
}

/// Asks points in a box round the faces, half a unit wider all round, along some rays each.
fn ask_points(faces: &[Vec<Point>], r: &mut Rng, tally: &mut Tally) -> BTreeSet<Finding> {
    let faces: Vec<Vec<Point>> = faces.iter().map(|face| face.iter().map(|p| scale(FINENESS, *p)).collect()).collect();
    let along = |axis: usize| faces.iter().flatten().map(move |p| p[axis] as i64);
    let least: [i64; 3] = std::array::from_fn(|axis| along(axis).min().unwrap_or(0) - FINENESS as i64 / 2);
    let most: [i64; 3] = std::array::from_fn(|axis| along(axis).max().unwrap_or(0) + FINENESS as i64 / 2);
    let mut findings = BTreeSet::new();
    for _ in 0..POINTS {
        let start = std::array::from_fn(|axis| r.range(least[axis], most[axis]) as i128);
        let mut numbers = vec![];
        for _ in 0..RAYS {
            let ray = Ray { start, way: std::array::from_fn(|_| r.range(-STEEPEST, STEEPEST) as i128) };
            let (Some(number), Some(met)) = (winding(&faces, ray), faces_met(&faces, ray)) else { continue };
            numbers.push(number);
            if number.rem_euclid(2) as u64 != met % 2 {
                findings.insert(Finding::ParityDiffers);
            }
        }
        tally.point(&numbers);
        findings.extend(wrong(&numbers));
    }
    findings
}

/// What is wrong with the winding numbers along the rays from one point.
fn wrong(numbers: &[i64]) -> Option<Finding> {
    let first = *numbers.first()?;
    if numbers.iter().any(|number| *number != first) {
        Some(Finding::RaysDiffer)
    } else {
        (first != 0 && first != 1).then_some(Finding::Winding(first))
    }
}
