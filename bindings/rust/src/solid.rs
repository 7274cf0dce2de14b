//! The solids of a report and their faces.
use crate::error::Error;
use crate::sys;
use nibgravel_numbers::{LIST_BYTES, ROW, SAID};
use std::fmt;

/// One solid of a report.
///
/// ```
/// # use nibgravel::{convert_sheet, MOST_WORK};
/// # let report = convert_sheet(include_bytes!("../../../samples/octahedron.sheet"), MOST_WORK)?;
/// let solid = report.solids().next().unwrap();
/// assert_eq!((solid.six_volumes(), solid.faces().count()), (8_000, 8));
/// # Ok::<(), nibgravel::Error>(())
/// ```
#[derive(Clone, Copy, Debug, PartialEq, Eq, Hash)]
pub struct Solid<'a> {
    /// Vertices and edges of the drawing.
    counts: (usize, usize),
    rows: &'a [u8],
    words: &'a [u64],
}

impl<'a> Solid<'a> {
    /// From the drawing's counts, the rows of a report and the solid's three words.
    pub(crate) fn new(counts: (usize, usize), rows: &'a [u8], words: &'a [u64]) -> Solid<'a> {
        Solid { counts, rows, words }
    }

    /// Six times the volume in cubic centimetres, which is a whole number.
    ///
    /// ```
    /// # use nibgravel::{convert_sheet, MOST_WORK};
    /// # let report = convert_sheet(include_bytes!("../../../samples/octahedron.sheet"), MOST_WORK)?;
    /// assert!(report.solids().all(|solid| solid.six_volumes() > 0));
    /// # Ok::<(), nibgravel::Error>(())
    /// ```
    pub fn six_volumes(&self) -> u64 {
        self.words[2]
    }

    /// A bit for each candidate that is a face of it, candidate 0 the lowest.
    ///
    /// ```
    /// # use nibgravel::{convert_sheet, MOST_WORK};
    /// # let report = convert_sheet(include_bytes!("../../../samples/octahedron.sheet"), MOST_WORK)?;
    /// assert_eq!(report.solids().next().unwrap().taken(), 0b01111011110);
    /// # Ok::<(), nibgravel::Error>(())
    /// ```
    pub fn taken(&self) -> u64 {
        self.words[0]
    }

    /// A bit for each face that is run against its normal form.
    ///
    /// ```
    /// # use nibgravel::{convert_sheet, MOST_WORK};
    /// # let report = convert_sheet(include_bytes!("../../../samples/octahedron.sheet"), MOST_WORK)?;
    /// assert_eq!(report.solids().next().unwrap().turned(), 0b01001001100);
    /// # Ok::<(), nibgravel::Error>(())
    /// ```
    pub fn turned(&self) -> u64 {
        self.words[1]
    }

    /// Its words, as a report has them.
    ///
    /// ```
    /// # use nibgravel::{convert_sheet, MOST_WORK};
    /// # let report = convert_sheet(include_bytes!("../../../samples/octahedron.sheet"), MOST_WORK)?;
    /// let solid = report.solids().next().unwrap();
    /// assert_eq!(solid.words(), [solid.taken(), solid.turned(), solid.six_volumes()]);
    /// # Ok::<(), nibgravel::Error>(())
    /// ```
    pub fn words(&self) -> &'a [u64] {
        self.words
    }

    /// Its faces, in the order of the candidates.
    ///
    /// ```
    /// # use nibgravel::{convert_sheet, MOST_WORK};
    /// # let report = convert_sheet(include_bytes!("../../../samples/octahedron.sheet"), MOST_WORK)?;
    /// let faces: Vec<String> = report.solids().next().unwrap().faces().map(|face| face.to_string()).collect();
    /// assert_eq!(faces.join(" "), "+1 -2 -3 +4 -6 +7 +8 -9");
    /// # Ok::<(), nibgravel::Error>(())
    /// ```
    pub fn faces(&self) -> impl Iterator<Item = Face<'a>> {
        let (rows, taken, turned) = (self.rows, self.taken(), self.turned());
        let has = |word: u64, candidate: usize| word >> candidate & 1 == 1;
        let face = move |(candidate, row): (usize, &'a [u8])| {
            let corners = &row[1..=row[0] as usize];
            has(taken, candidate).then_some(Face { candidate, turned: has(turned, candidate), corners })
        };
        rows.chunks_exact(ROW).enumerate().filter_map(face)
    }

    /// The solid as a face list, for [`check`](crate::check). (Refusal 20 is for words that are no solid's.)
    ///
    /// ```
    /// # use nibgravel::{convert_sheet, MOST_WORK};
    /// # let report = convert_sheet(include_bytes!("../../../samples/octahedron.sheet"), MOST_WORK)?;
    /// let list = report.solids().next().unwrap().to_face_list()?;
    /// assert_eq!(list.len(), 21);
    /// # Ok::<(), nibgravel::Error>(())
    /// ```
    pub fn to_face_list(&self) -> Result<Vec<u8>, Error> {
        write_faces(self.rows, self.words, self.counts.0, self.counts.1)
    }
}

/// One face of a solid: a candidate, and the direction in which it is run so that it looks outward.
///
/// ```
/// # use nibgravel::{convert_sheet, MOST_WORK};
/// # let report = convert_sheet(include_bytes!("../../../samples/octahedron.sheet"), MOST_WORK)?;
/// let face = report.solids().next().unwrap().faces().nth(1).unwrap();
/// assert_eq!((face.candidate(), face.is_turned()), (2, true));
/// assert_eq!(face.corners().collect::<Vec<u8>>(), [0, 5, 2]);
/// assert_eq!(face.to_string(), "-2");
/// # Ok::<(), nibgravel::Error>(())
/// ```
#[derive(Clone, Copy, Debug, PartialEq, Eq, Hash)]
pub struct Face<'a> {
    candidate: usize,
    turned: bool,
    corners: &'a [u8],
}

impl<'a> Face<'a> {
    /// Its number among the candidates, from 0.
    ///
    /// ```
    /// # use nibgravel::{convert_sheet, MOST_WORK};
    /// # let report = convert_sheet(include_bytes!("../../../samples/octahedron.sheet"), MOST_WORK)?;
    /// # let solid = report.solids().next().unwrap();
    /// assert_eq!(solid.faces().map(|face| face.candidate()).collect::<Vec<usize>>(), [1, 2, 3, 4, 6, 7, 8, 9]);
    /// # Ok::<(), nibgravel::Error>(())
    /// ```
    pub fn candidate(&self) -> usize {
        self.candidate
    }

    /// Whether it is run against its normal form.
    ///
    /// ```
    /// # use nibgravel::{convert_sheet, MOST_WORK};
    /// # let report = convert_sheet(include_bytes!("../../../samples/octahedron.sheet"), MOST_WORK)?;
    /// # let solid = report.solids().next().unwrap();
    /// assert_eq!(solid.faces().filter(|face| face.is_turned()).count(), 4);
    /// # Ok::<(), nibgravel::Error>(())
    /// ```
    pub fn is_turned(&self) -> bool {
        self.turned
    }

    /// Its corners, as vertex numbers, in the direction in which it is run: seen from outside they go round anticlockwise. The first is the
    /// lowest.
    ///
    /// ```
    /// # use nibgravel::{convert_sheet, MOST_WORK};
    /// # let report = convert_sheet(include_bytes!("../../../samples/octahedron.sheet"), MOST_WORK)?;
    /// # let solid = report.solids().next().unwrap();
    /// let first = solid.faces().next().unwrap();
    /// assert_eq!(first.corners().collect::<Vec<u8>>(), [0, 2, 4]);
    /// # Ok::<(), nibgravel::Error>(())
    /// ```
    pub fn corners(&self) -> impl ExactSizeIterator<Item = u8> + 'a {
        let Face { turned, corners, .. } = *self;
        let count = corners.len();
        (0..count).map(move |k| corners[if turned { (count - k) % count } else { k }])
    }
}

/// The candidate's number, with a minus where the face is turned and else a plus.
impl fmt::Display for Face<'_> {
    fn fmt(&self, f: &mut fmt::Formatter) -> fmt::Result {
        write!(f, "{}{}", if self.turned { '-' } else { '+' }, self.candidate)
    }
}

/// Writes faces as a face list, from the rows of a report and the words of a solid (a word that isn't there is 0), for a drawing of so many
/// vertices and edges: refusal 20 where they make no list.
///
/// [`Solid::to_face_list`] does this for a solid of a report.
///
/// ```
/// assert_eq!(nibgravel::write_faces(&[], &[], 4, 6).unwrap_err().name(), "ShellShape");
/// ```
pub fn write_faces(rows: &[u8], solid: &[u64], vertices: usize, edges: usize) -> Result<Vec<u8>, Error> {
    let (mut room, mut said) = ([0; LIST_BYTES], [0; SAID]);
    match sys::write_faces(rows, solid, vertices, edges, &mut room, &mut said) {
        0 => Ok(room[..said[2] as usize].to_vec()),
        number => Err(Error::said(number, &said)),
    }
}
