//! The numbers of document 01, each once, and the table of what comes back.
use std::ops::RangeInclusive;

pub const EDITION: u32 = 1;
pub const VERTICES: RangeInclusive<usize> = 4..=32;
pub const EDGES: RangeInclusive<usize> = 6..=64;
pub const COORDINATE: RangeInclusive<i64> = -1_000..=1_000;
pub const CORNERS: RangeInclusive<usize> = 3..=12;
pub const FACES: RangeInclusive<usize> = 4..=42;
pub const MOST_LOOPS: usize = 128;
pub const MOST_CANDIDATES: usize = 64;
pub const MOST_SOLIDS: usize = 8;
pub const MOST_WORK: u64 = 1_000_000;

/// The most loops, candidates and solids of a conversion.
#[derive(Clone, Copy, Debug, PartialEq, Eq)]
pub struct Limits {
    pub loops: usize,
    pub candidates: usize,
    pub solids: usize,
}

pub const DOCUMENTED: Limits = Limits { loops: MOST_LOOPS, candidates: MOST_CANDIDATES, solids: MOST_SOLIDS };

/// Bytes that a report writes per candidate, and its fill.
pub const FACE_ROW: usize = 13;
pub const FACE_FILL: u8 = 255;
pub const FACE_ROOM: usize = 832;
pub const SOLID_ROOM: usize = 24;
/// Bytes of the longest face list.
pub const LONGEST_LIST: usize = 338;

/// Widths of the packed fields, in bits.
pub mod width {
    pub const EDITION: usize = 4;
    pub const VERTICES: usize = 6;
    pub const EDGES: usize = 7;
    pub const COORDINATE: usize = 11;
    pub const END: usize = 5;
    pub const FACES: usize = 6;
    pub const CORNERS: usize = 4;
}

/// A refusal: its number in the table and its place.
#[derive(Clone, Copy, Debug, PartialEq, Eq, Hash)]
pub struct Refusal {
    pub number: u32,
    pub place: u32,
}

pub fn refuse<T>(number: u32, place: usize) -> Result<T, Refusal> {
    Err(Refusal { number, place: place as u32 })
}

pub const NO_ROOM: u32 = 1;
pub const BAD_LIMIT: u32 = 2;
pub const SHEET_SHORT: u32 = 3;
pub const SHEET_EDITION: u32 = 4;
pub const BAD_COUNT: u32 = 5;
pub const SHEET_LENGTH: u32 = 6;
pub const SHEET_PAD: u32 = 7;
pub const BAD_COORDINATE: u32 = 8;
pub const BAD_EDGE: u32 = 9;
pub const EDGE_ORDER: u32 = 10;
pub const SAME_PLACE: u32 = 11;
pub const LOOSE_VERTEX: u32 = 12;
pub const EDGE_MEETS: u32 = 13;
pub const APART: u32 = 14;
pub const MANY_LOOPS: u32 = 15;
pub const MANY_CANDIDATES: u32 = 16;
pub const NO_SOLID: u32 = 17;
pub const MANY: u32 = 18;
pub const TOO_LONG: u32 = 19;
pub const SHELL_SHAPE: u32 = 20;
pub const NOT_CANDIDATE: u32 = 21;
pub const FACE_TWICE: u32 = 22;
pub const EDGE_COUNT: u32 = 23;
pub const DIRECTION: u32 = 24;
pub const PIECES: u32 = 25;
pub const INWARD: u32 = 26;
pub const CLASH: u32 = 27;
/// The reading's number where two to eight solids exist.
pub const SEVERAL: u32 = 30;
