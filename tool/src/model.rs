//! What the proved program said of a sheet, as values. Nothing here decides anything.
use nibgravel_numbers::Number;
use std::fmt;

/// A drawing as it was read off a sheet: corners in whole centimetres, and edges by the numbers of their two ends.
#[derive(Clone, Debug, PartialEq, Eq)]
pub struct Drawing {
    pub vertices: Vec<[i64; 3]>,
    pub edges: Vec<[usize; 2]>,
}

/// A number of document 01's table and its place.
#[derive(Clone, Copy, Debug, PartialEq, Eq)]
pub struct Refusal {
    pub number: Number,
    pub place: u64,
}

/// As `13 EdgeMeets, edge 4`; without the place where it is always 0.
impl fmt::Display for Refusal {
    fn fmt(&self, f: &mut fmt::Formatter) -> fmt::Result {
        f.write_str(&self.number.at(self.place))
    }
}

/// The loops and candidates of a drawing that was searched, and the assumptions that were made.
#[derive(Clone, Copy, Debug, PartialEq, Eq)]
pub struct Search {
    pub loops: u64,
    pub candidates: u64,
    pub work: u64,
}

/// A wall: a candidate by its number, whether it is run against its normal form, and its corners in the order in which
/// it is run.
#[derive(Clone, Debug, PartialEq, Eq)]
pub struct Face {
    pub candidate: usize,
    pub turned: bool,
    pub corners: Vec<usize>,
}

/// A solid of a report: its two words of candidates, six volumes in cubic centimetres, and its walls in candidates'
/// order.
#[derive(Clone, Debug, PartialEq, Eq)]
pub struct Solid {
    pub taken: u64,
    pub turned: u64,
    pub six: u64,
    pub faces: Vec<Face>,
}

/// The candidates that all solids take, a bit for each.
pub fn shared(solids: &[Solid]) -> u64 {
    solids.iter().fold(u64::MAX, |all, solid| all & solid.taken)
}

/// The answer of a conversion.
#[derive(Clone, Debug, PartialEq, Eq)]
pub enum Conversion {
    /// One to eight solids, and the corners of every candidate in normal form.
    Report {
        search: Search,
        candidates: Vec<Vec<usize>>,
        solids: Vec<Solid>,
    },
    /// 17 to 19: the drawing was searched, and there is no report.
    Ended {
        number: Number,
        search: Search,
    },
    Refused(Refusal),
}

/// The reading of a conversion: a volume in cubic metres, or the number that says why there is none.
#[derive(Clone, Copy, Debug, PartialEq)]
pub enum Reading {
    Volume(f64),
    NotAssessed(Number),
}

/// All that is said of a sheet. There is a drawing where the sheet could be read (refusals 3 to 10 leave none).
#[derive(Clone, Debug, PartialEq)]
pub struct Assessment {
    pub drawing: Option<Drawing>,
    pub conversion: Conversion,
    pub reading: Reading,
}
