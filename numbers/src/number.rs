//! The table of what comes back.
use crate::place::Place;
use std::fmt;
use std::ops::RangeInclusive;

/// Why there is no answer: a number of the document's table, by the table's names.
///
/// 1 to 27 come with a refusal, 2 to 19 and 30 with a reading. `docs/ANSWERS.md` of the repository says of each what it means for a
/// premium and what to ask the installer for.
///
/// ```
/// use nibgravel_numbers::Number;
///
/// let number = Number::EdgeMeets;
/// assert_eq!(u8::from(number), 13);
/// assert_eq!(number.name(), "EdgeMeets");
/// assert_eq!(number.to_string(), "13 EdgeMeets");
/// ```
#[derive(Clone, Copy, Debug, PartialEq, Eq, PartialOrd, Ord, Hash)]
#[repr(u8)]
pub enum Number {
    /// A lent room is too short.
    NoRoom = 1,
    /// The work limit is above [`MOST_WORK`](crate::MOST_WORK).
    BadLimit = 2,
    /// The sheet has fewer than three bytes.
    SheetShort = 3,
    /// The sheet is not of edition 1.
    SheetEdition = 4,
    /// Too few or too many vertices (place 0) or edges (place 1), or a list that is not whole.
    BadCount = 5,
    /// The sheet is shorter or longer than its counts say.
    SheetLength = 6,
    /// The unused bits at the end of the sheet are not zero.
    SheetPad = 7,
    /// A coordinate is outside -1,000 to 1,000. The place is the one in the list of coordinates.
    BadCoordinate = 8,
    /// An end of this edge is no vertex, or its ends don't rise.
    BadEdge = 9,
    /// This edge is not above the one before.
    EdgeOrder = 10,
    /// This vertex is at the same point as another.
    SamePlace = 11,
    /// This vertex is on no edge.
    LooseVertex = 12,
    /// This edge shares a point with a vertex or an edge, other than at its own ends.
    EdgeMeets = 13,
    /// This vertex can't be reached from vertex 0.
    Apart = 14,
    /// There are more than 128 loops.
    ManyLoops = 15,
    /// There are more than 64 candidates.
    ManyCandidates = 16,
    /// All was searched, and there is no solid. The place is the work.
    NoSolid = 17,
    /// A ninth solid was met. The place is the work.
    Many = 18,
    /// The search would have passed the work limit. The place is the work.
    TooLong = 19,
    /// The face list can't be read: its edition, a count, its length, its fill or a corner number.
    ShellShape = 20,
    /// This face is no candidate.
    NotCandidate = 21,
    /// This face stands earlier in the list.
    FaceTwice = 22,
    /// This edge is not in two faces.
    EdgeCount = 23,
    /// Both faces at this edge run it the same way.
    Direction = 24,
    /// This face is not joined to the first.
    Pieces = 25,
    /// The faces look inward, or enclose nothing.
    Inward = 26,
    /// This face clashes with another.
    Clash = 27,
    /// Of a reading: there are two to eight solids, which may have equal volumes.
    Ambiguous = 30,
}

/// What a conversion can be refused by.
pub const CONVERSION: RangeInclusive<Number> = Number::NoRoom..=Number::TooLong;
/// What reading a sheet can be refused by.
pub const SHEET_RULES: RangeInclusive<Number> = Number::SheetShort..=Number::EdgeOrder;
/// "The drawing rules are 3 to 16".
pub const DRAWING_RULES: RangeInclusive<Number> = Number::SheetShort..=Number::ManyCandidates;
/// The drawing was searched, and there is no report.
pub const ENDED: RangeInclusive<Number> = Number::NoSolid..=Number::TooLong;
/// What a face list can be refused by.
pub const LIST_RULES: RangeInclusive<Number> = Number::ShellShape..=Number::Clash;

/// Each number with its name and with what its place counts.
const TABLE: [(Number, &str, Place); 28] = [
    (Number::NoRoom, "NoRoom", Place::Room),
    (Number::BadLimit, "BadLimit", Place::None),
    (Number::SheetShort, "SheetShort", Place::None),
    (Number::SheetEdition, "SheetEdition", Place::None),
    (Number::BadCount, "BadCount", Place::List),
    (Number::SheetLength, "SheetLength", Place::None),
    (Number::SheetPad, "SheetPad", Place::None),
    (Number::BadCoordinate, "BadCoordinate", Place::Coordinate),
    (Number::BadEdge, "BadEdge", Place::Edge),
    (Number::EdgeOrder, "EdgeOrder", Place::Edge),
    (Number::SamePlace, "SamePlace", Place::Vertex),
    (Number::LooseVertex, "LooseVertex", Place::Vertex),
    (Number::EdgeMeets, "EdgeMeets", Place::Edge),
    (Number::Apart, "Apart", Place::Vertex),
    (Number::ManyLoops, "ManyLoops", Place::None),
    (Number::ManyCandidates, "ManyCandidates", Place::None),
    (Number::NoSolid, "NoSolid", Place::Work),
    (Number::Many, "Many", Place::Work),
    (Number::TooLong, "TooLong", Place::Work),
    (Number::ShellShape, "ShellShape", Place::None),
    (Number::NotCandidate, "NotCandidate", Place::Face),
    (Number::FaceTwice, "FaceTwice", Place::Face),
    (Number::EdgeCount, "EdgeCount", Place::Edge),
    (Number::Direction, "Direction", Place::Edge),
    (Number::Pieces, "Pieces", Place::Face),
    (Number::Inward, "Inward", Place::None),
    (Number::Clash, "Clash", Place::Face),
    (Number::Ambiguous, "Ambiguous", Place::None),
];

impl Number {
    /// All numbers, in the table's order.
    ///
    /// ```
    /// assert_eq!(nibgravel_numbers::Number::all().count(), 28);
    /// ```
    pub fn all() -> impl Iterator<Item = Number> {
        TABLE.iter().map(|row| row.0)
    }

    /// The table's name of this number.
    ///
    /// ```
    /// assert_eq!(nibgravel_numbers::Number::NoSolid.name(), "NoSolid");
    /// ```
    pub fn name(self) -> &'static str {
        self.row().1
    }

    /// What its place counts.
    ///
    /// ```
    /// use nibgravel_numbers::{Number, Place};
    ///
    /// assert_eq!(Number::NoSolid.place(), Place::Work);
    /// ```
    pub fn place(self) -> Place {
        self.row().2
    }

    /// The number, the name and, where it can be other than 0, the place.
    ///
    /// ```
    /// use nibgravel_numbers::Number;
    ///
    /// assert_eq!(Number::EdgeMeets.at(4), "13 EdgeMeets, edge 4");
    /// assert_eq!(Number::BadCount.at(1), "5 BadCount, edges");
    /// assert_eq!(Number::SheetShort.at(0), "3 SheetShort");
    /// ```
    pub fn at(self, place: u64) -> String {
        self.place().told(place).map_or(self.to_string(), |place| format!("{self}, {place}"))
    }

    fn row(self) -> &'static (Number, &'static str, Place) {
        let place = if self == Number::Ambiguous { TABLE.len() } else { self as usize };
        &TABLE[place - 1]
    }
}

/// A number of the table, 1 to 27 or 30; any other one is given back.
///
/// ```
/// use nibgravel_numbers::Number;
///
/// assert_eq!(Number::try_from(30), Ok(Number::Ambiguous));
/// assert_eq!(Number::try_from(28), Err(28));
/// ```
impl TryFrom<u8> for Number {
    type Error = u8;

    fn try_from(number: u8) -> Result<Number, u8> {
        Number::all().find(|known| *known as u8 == number).ok_or(number)
    }
}

impl From<Number> for u8 {
    fn from(number: Number) -> u8 {
        number as u8
    }
}

/// The number and the name, as `13 EdgeMeets`.
impl fmt::Display for Number {
    fn fmt(&self, f: &mut fmt::Formatter) -> fmt::Result {
        write!(f, "{} {}", *self as u8, self.name())
    }
}

#[cfg(test)]
mod tests {
    use super::*;

    #[test]
    fn each_number_has_its_own_row() {
        for (number, name, _) in TABLE {
            assert_eq!((number.row().0, number.name()), (number, name));
            assert_eq!(name, format!("{number:?}"));
            assert_eq!(Number::try_from(number as u8), Ok(number));
        }
    }

    #[test]
    fn the_numbers_are_1_to_27_and_30() {
        let known: Vec<u8> = (0..=255).filter(|number| Number::try_from(*number).is_ok()).collect();
        assert_eq!(known, (1..=27).chain([30]).collect::<Vec<u8>>());
    }

    #[test]
    fn the_names_are_those_of_the_page_of_answers() {
        let page = include_str!("../../docs/ANSWERS.md");
        for number in Number::all() {
            assert!(page.contains(&format!("- **{number}.**")), "{number}");
        }
    }
}
