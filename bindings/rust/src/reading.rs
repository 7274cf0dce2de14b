//! What a premium may be set from.
use crate::error::returned;
use crate::sys;
use nibgravel_numbers::Number;
use std::fmt;

/// The reading of a drawing that is lent as two lists, with a work limit of 0 to [`MOST_WORK`](crate::MOST_WORK).
///
/// ```
/// use nibgravel::{assess, Reading, MOST_WORK};
///
/// let xyz = [0, 0, 0, 6, 0, 0, 0, 6, 0, 0, 0, 6];
/// let ends = [0, 1, 0, 2, 0, 3, 1, 2, 1, 3, 2, 3];
/// assert_eq!(assess(&xyz, &ends, MOST_WORK), Reading::Volume(0.000036));
/// assert_eq!(assess(&xyz, &ends[2..], MOST_WORK), Reading::NotAssessed(5));
/// ```
pub fn assess(xyz: &[i64], ends: &[u8], limit: u64) -> Reading {
    read(|volume| sys::assess(xyz, ends, limit, volume))
}

/// The reading of a sheet.
///
/// ```
/// use nibgravel::{assess_sheet, Reading, MOST_WORK};
///
/// let sheet = include_bytes!("../../../samples/octahedron.sheet");
/// assert_eq!(assess_sheet(sheet, MOST_WORK), Reading::Volume(8_000.0 / 6_000_000.0));
/// assert_eq!(assess_sheet(sheet, 3), Reading::NotAssessed(19));
/// ```
pub fn assess_sheet(sheet: &[u8], limit: u64) -> Reading {
    read(|volume| sys::assess_sheet(sheet, limit, volume))
}

fn read(call: impl FnOnce(&mut [f64]) -> u64) -> Reading {
    let mut volume = [f64::NAN];
    match call(&mut volume) {
        0 => Reading::Volume(volume[0]),
        number => Reading::NotAssessed(returned(number).into()),
    }
}

/// A volume where the drawing allows exactly one solid, and otherwise the number that says why there is none.
///
/// ```
/// use nibgravel::{assess_sheet, Reading};
///
/// match assess_sheet(&[], 1_000) {
///     Reading::Volume(cubic_metres) => println!("assessed: {cubic_metres}"),
///     Reading::NotAssessed(number) => assert_eq!(number, 3),
/// }
/// ```
#[derive(Clone, Copy, Debug, PartialEq)]
#[must_use]
pub enum Reading {
    /// The volume of the only solid, in cubic metres: six volumes divided by 6,000,000, rounded once.
    Volume(f64),
    /// Nothing was assessed: 2 to 19, or 30 where there are two to eight solids.
    NotAssessed(u8),
}

impl Reading {
    /// The volume, if there is one.
    ///
    /// ```
    /// use nibgravel::Reading;
    ///
    /// assert_eq!(Reading::Volume(0.5).volume(), Some(0.5));
    /// assert_eq!(Reading::NotAssessed(17).volume(), None);
    /// ```
    pub fn volume(&self) -> Option<f64> {
        match self {
            Reading::Volume(volume) => Some(*volume),
            Reading::NotAssessed(_) => None,
        }
    }

    /// Why there is no volume, by name.
    ///
    /// ```
    /// use nibgravel::{Number, Reading};
    ///
    /// assert_eq!(Reading::NotAssessed(30).number(), Some(Number::Ambiguous));
    /// assert_eq!(Reading::Volume(0.5).number(), None);
    /// ```
    pub fn number(&self) -> Option<Number> {
        match self {
            Reading::Volume(_) => None,
            Reading::NotAssessed(number) => Number::try_from(*number).ok(),
        }
    }
}

/// `0.5 cubic metres`, or `not assessed: 30 Ambiguous`.
///
/// ```
/// use nibgravel::Reading;
///
/// assert_eq!(Reading::Volume(0.5).to_string(), "0.5 cubic metres");
/// assert_eq!(Reading::NotAssessed(30).to_string(), "not assessed: 30 Ambiguous");
/// ```
impl fmt::Display for Reading {
    fn fmt(&self, f: &mut fmt::Formatter) -> fmt::Result {
        match (self, self.number()) {
            (Reading::Volume(volume), _) => write!(f, "{volume} cubic metres"),
            (Reading::NotAssessed(_), Some(number)) => write!(f, "not assessed: {number}"),
            (Reading::NotAssessed(number), None) => write!(f, "not assessed: {number}"),
        }
    }
}
