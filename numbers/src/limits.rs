//! What a drawing, a report and a face list may have.
use std::ops::RangeInclusive;

/// Vertices of a drawing.
pub const VERTICES: RangeInclusive<usize> = 4..=32;
/// Edges of a drawing.
pub const EDGES: RangeInclusive<usize> = 6..=64;
/// A coordinate, in centimetres.
pub const COORDINATE: RangeInclusive<i64> = -1_000..=1_000;
/// Corners of a loop.
pub const CORNERS: RangeInclusive<usize> = 3..=12;
/// Faces of a list.
pub const FACES: RangeInclusive<usize> = 4..=42;
/// Solids of a report.
pub const SOLIDS: RangeInclusive<usize> = 1..=8;
/// Loops that a drawing may have.
pub const MOST_LOOPS: usize = 128;
/// Candidates that a drawing may have.
pub const MOST_CANDIDATES: usize = 64;
/// The highest work limit.
pub const MOST_WORK: u64 = 1_000_000;
