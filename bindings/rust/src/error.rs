//! What comes back where there is no answer.
use nibgravel_numbers::{Number, ENDED, SAID};
use std::fmt;

/// What a search counted: the loops of the drawing, how many of them may be faces, and the assumptions that were made.
///
/// A report has one, and so has an error of 17 to 19.
///
/// ```
/// use nibgravel::{Drawing, MOST_WORK};
///
/// let cube_without_an_edge = Drawing::new(
///     &[[0, 0, 0], [9, 0, 0], [0, 9, 0], [9, 9, 0], [0, 0, 9], [9, 0, 9], [0, 9, 9], [9, 9, 9]],
///     &[[0, 2], [0, 4], [1, 3], [1, 5], [2, 3], [2, 6], [3, 7], [4, 5], [4, 6], [5, 7], [6, 7]],
/// );
/// let error = cube_without_an_edge.convert(MOST_WORK).unwrap_err();
/// let search = error.search().unwrap();
/// assert_eq!((search.loops, search.candidates, search.work), (4, 4, 0));
/// ```
#[derive(Clone, Copy, Debug, PartialEq, Eq, Hash)]
pub struct Search {
    /// The closed flat paths of 3 to 12 corners.
    pub loops: usize,
    /// Those of them that may be faces.
    pub candidates: usize,
    /// The assumptions that the search made.
    pub work: u64,
}

/// A refusal: a number of the table and its place.
///
/// ```
/// use nibgravel::{Drawing, Number};
///
/// let error = Drawing::read(&[16, 1]).unwrap_err();
/// assert_eq!(error.number(), Number::SheetShort);
/// assert_eq!(error.name(), "SheetShort");
/// assert_eq!(error.place(), 0);
/// assert_eq!(error.to_string(), "3 SheetShort");
/// ```
#[derive(Clone, Copy, Debug, PartialEq, Eq, Hash)]
pub struct Error {
    number: Number,
    place: usize,
    search: Option<Search>,
}

impl Error {
    /// The number of the table, 1 to 27.
    ///
    /// ```
    /// use nibgravel::{convert, Number, MOST_WORK};
    ///
    /// assert_eq!(convert(&[], &[], MOST_WORK + 1).unwrap_err().number(), Number::BadLimit);
    /// ```
    pub fn number(&self) -> Number {
        self.number
    }

    /// The table's name of the number.
    ///
    /// ```
    /// assert_eq!(nibgravel::convert(&[], &[], 0).unwrap_err().name(), "BadCount");
    /// ```
    pub fn name(&self) -> &'static str {
        self.number.name()
    }

    /// Which vertex, edge, face or coordinate offends: the lowest that does, counted from 0. Of 17 to 19 it is the work.
    ///
    /// ```
    /// use nibgravel::Drawing;
    ///
    /// let same = Drawing::new(&[[0; 3]; 4], &[[0, 1], [0, 2], [0, 3], [1, 2], [1, 2], [2, 3]]);
    /// let error = same.to_sheet().unwrap_err();
    /// assert_eq!((error.name(), error.place()), ("EdgeOrder", 4));
    /// ```
    pub fn place(&self) -> usize {
        self.place
    }

    /// What the search counted, if it is one of 17 to 19.
    ///
    /// ```
    /// assert_eq!(nibgravel::convert(&[], &[], 0).unwrap_err().search(), None);
    /// ```
    pub fn search(&self) -> Option<Search> {
        self.search
    }

    /// From a number above 0 that was returned, and what was said.
    pub(crate) fn said(number: u64, said: &[u64; SAID]) -> Error {
        let (number, place) = (returned(number), said[1] as usize);
        let search = ENDED.contains(&number).then(|| Search {
            loops: said[2] as usize,
            candidates: said[3] as usize,
            work: said[1],
        });
        Error { number, place, search }
    }
}

/// The number, the name and, where it can be other than 0, the place: `13 EdgeMeets, edge 4`, or `5 BadCount, edges`.
impl fmt::Display for Error {
    fn fmt(&self, f: &mut fmt::Formatter) -> fmt::Result {
        f.write_str(&self.number.at(self.place as u64))
    }
}

impl std::error::Error for Error {}

/// The number that a function of the archive returned. That it is one of the table is proved of the archive, so another one means that
/// some other archive was linked.
pub(crate) fn returned(number: u64) -> Number {
    let known = u8::try_from(number).ok().and_then(|number| Number::try_from(number).ok());
    known.unwrap_or_else(|| {
        panic!("the archive is not nibgravel's: it returned {number}, which is no number of the table")
    })
}

#[cfg(test)]
mod tests {
    use super::*;

    #[test]
    #[should_panic(expected = "returned 286")]
    fn a_number_of_more_than_a_byte_is_not_cut() {
        returned(256 + 30);
    }
}
