//! Conversion and its report.
use crate::drawing::Drawing;
use crate::error::{Error, Search};
use crate::solid::Solid;
use crate::sys;
use nibgravel_numbers::{FACE_ROOM, ROW, SAID, SOLID_ROOM, SOLID_WORDS};

/// Converts a drawing that is lent as two lists, with a work limit of 0 to [`MOST_WORK`](crate::MOST_WORK): refusals 2, 5 and 8 to 19.
///
/// ```
/// use nibgravel::{convert, MOST_WORK};
///
/// let xyz = [0, 0, 0, 6, 0, 0, 0, 6, 0, 0, 0, 6];
/// let ends = [0, 1, 0, 2, 0, 3, 1, 2, 1, 3, 2, 3];
/// let report = convert(&xyz, &ends, MOST_WORK)?;
/// assert_eq!(report.solids().map(|solid| solid.six_volumes()).collect::<Vec<u64>>(), [216]);
/// assert_eq!(convert(&xyz[..9], &ends, MOST_WORK).unwrap_err().to_string(), "5 BadCount, vertices");
/// # Ok::<(), nibgravel::Error>(())
/// ```
pub fn convert(xyz: &[i64], ends: &[u8], limit: u64) -> Result<Report, Error> {
    let counts = || (xyz.len() / 3, ends.len() / 2);
    reported(counts, |faces, solids, said| sys::convert(xyz, ends, limit, faces, solids, said))
}

/// Converts a sheet: refusals 2 to 19.
///
/// ```
/// use nibgravel::{convert_sheet, MOST_WORK};
///
/// let sheet = include_bytes!("../../../samples/octahedron.sheet");
/// let report = convert_sheet(sheet, MOST_WORK)?;
/// assert_eq!((report.search().candidates, report.search().work, report.solids().len()), (11, 4, 1));
/// assert_eq!(convert_sheet(sheet, 3).unwrap_err().to_string(), "19 TooLong, work 3");
/// # Ok::<(), nibgravel::Error>(())
/// ```
pub fn convert_sheet(sheet: &[u8], limit: u64) -> Result<Report, Error> {
    let counts = || Drawing::read(sheet).map_or((0, 0), |drawing| (drawing.xyz.len() / 3, drawing.ends.len() / 2));
    reported(counts, |faces, solids, said| sys::convert_sheet(sheet, limit, faces, solids, said))
}

/// The report that a call makes of a drawing of so many vertices and edges.
fn reported(
    counts: impl FnOnce() -> (usize, usize),
    call: impl FnOnce(&mut [u8], &mut [u64], &mut [u64]) -> u64,
) -> Result<Report, Error> {
    let (mut rows, mut words, mut said) = ([0; FACE_ROOM], [0; SOLID_ROOM], [0; SAID]);
    match call(&mut rows, &mut words, &mut said) {
        0 => {
            let search = Search { loops: said[2] as usize, candidates: said[3] as usize, work: said[4] };
            let (rows, words) = (&rows[..ROW * search.candidates], &words[..SOLID_WORDS * said[5] as usize]);
            Ok(Report { counts: counts(), search, rows: rows.to_vec(), words: words.to_vec() })
        }
        number => Err(Error::said(number, &said)),
    }
}

/// What a conversion found: one to eight solids.
///
/// Where there are several, none of their volumes is an assessment: that is what [`assess`](crate::assess) says.
///
/// ```
/// use nibgravel::{convert_sheet, MOST_WORK};
///
/// let report = convert_sheet(include_bytes!("../../../samples/octahedron.sheet"), MOST_WORK)?;
/// for solid in report.solids() {
///     for face in solid.faces() {
///         println!("{face}: {:?}", face.corners().collect::<Vec<u8>>());
///     }
/// }
/// # Ok::<(), nibgravel::Error>(())
/// ```
#[derive(Clone, Debug, PartialEq, Eq, Hash)]
pub struct Report {
    /// Vertices and edges of the drawing.
    counts: (usize, usize),
    search: Search,
    rows: Vec<u8>,
    words: Vec<u64>,
}

impl Report {
    /// What the search counted.
    ///
    /// ```
    /// # use nibgravel::{convert_sheet, Search, MOST_WORK};
    /// # let report = convert_sheet(include_bytes!("../../../samples/octahedron.sheet"), MOST_WORK)?;
    /// assert_eq!(report.search(), Search { loops: 11, candidates: 11, work: 4 });
    /// # Ok::<(), nibgravel::Error>(())
    /// ```
    pub fn search(&self) -> Search {
        self.search
    }

    /// The solids, in the order in which they were found.
    ///
    /// ```
    /// # use nibgravel::{convert_sheet, MOST_WORK};
    /// # let report = convert_sheet(include_bytes!("../../../samples/octahedron.sheet"), MOST_WORK)?;
    /// assert_eq!(report.solids().len(), 1);
    /// # Ok::<(), nibgravel::Error>(())
    /// ```
    pub fn solids(&self) -> impl ExactSizeIterator<Item = Solid<'_>> {
        self.words.chunks_exact(SOLID_WORDS).map(|words| Solid::new(self.counts, &self.rows, words))
    }

    /// 13 bytes for each candidate: its number of corners, the corners in normal form, and 255 as fill.
    ///
    /// ```
    /// # use nibgravel::{convert_sheet, MOST_WORK};
    /// # let report = convert_sheet(include_bytes!("../../../samples/octahedron.sheet"), MOST_WORK)?;
    /// assert_eq!(report.rows().len(), 13 * report.search().candidates);
    /// assert_eq!(report.rows()[..5], [4, 0, 2, 1, 3]);
    /// # Ok::<(), nibgravel::Error>(())
    /// ```
    pub fn rows(&self) -> &[u8] {
        &self.rows
    }
}
