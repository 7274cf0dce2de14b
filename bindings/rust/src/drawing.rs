//! Drawings, and sheets read and written.
use crate::error::Error;
use crate::reading::{assess, Reading};
use crate::report::{convert, Report};
use crate::sys;
use crate::verdict::{check, Verdict};
use nibgravel_numbers::{COORDINATES, ENDS, SAID, SHEET_BYTES};

/// A drawing: three coordinates for each vertex, in centimetres, and two vertex numbers for each edge.
///
/// Any numbers may stand here, and lists of any length: what is wrong with them is answered by each call.
///
/// ```
/// use nibgravel::{Drawing, Reading, MOST_WORK};
///
/// let tetrahedron = Drawing::new(
///     &[[0, 0, 0], [6, 0, 0], [0, 6, 0], [0, 0, 6]],
///     &[[0, 1], [0, 2], [0, 3], [1, 2], [1, 3], [2, 3]],
/// );
/// assert_eq!(tetrahedron.assess(MOST_WORK), Reading::Volume(0.000036));
/// ```
#[derive(Clone, Debug, Default, PartialEq, Eq, Hash)]
pub struct Drawing {
    /// x, y and z of vertex 0, then of vertex 1, and so on.
    pub xyz: Vec<i64>,
    /// The two ends of edge 0, then of edge 1, and so on.
    pub ends: Vec<u8>,
}

impl Drawing {
    /// A drawing of these vertices and edges, as they are.
    ///
    /// ```
    /// use nibgravel::Drawing;
    ///
    /// let line = Drawing::new(&[[0, 0, 0], [6, 0, 0]], &[[0, 1]]);
    /// assert_eq!((line.xyz, line.ends), (vec![0, 0, 0, 6, 0, 0], vec![0, 1]));
    /// ```
    pub fn new(vertices: &[[i64; 3]], edges: &[[u8; 2]]) -> Drawing {
        Drawing { xyz: vertices.as_flattened().to_vec(), ends: edges.as_flattened().to_vec() }
    }

    /// Reads a sheet: refusals 3 to 10.
    ///
    /// ```
    /// use nibgravel::Drawing;
    ///
    /// let drawing = Drawing::new(&[[0; 3]; 4], &[[0, 1], [0, 2], [0, 3], [1, 2], [1, 3], [2, 3]]);
    /// let mut sheet = drawing.to_sheet()?;
    /// assert_eq!(Drawing::read(&sheet)?, drawing);
    /// sheet.push(0);
    /// assert_eq!(Drawing::read(&sheet).unwrap_err().name(), "SheetLength");
    /// # Ok::<(), nibgravel::Error>(())
    /// ```
    pub fn read(sheet: &[u8]) -> Result<Drawing, Error> {
        let (mut xyz, mut ends, mut said) = ([0; COORDINATES], [0; ENDS], [0; SAID]);
        match sys::read_sheet(sheet, &mut xyz, &mut ends, &mut said) {
            0 => Ok(Drawing { xyz: xyz[..3 * said[2] as usize].to_vec(), ends: ends[..2 * said[3] as usize].to_vec() }),
            number => Err(Error::said(number, &said)),
        }
    }

    /// The drawing as a sheet: refusals 5, 8, 9 and 10. Whether the drawing makes sense is not asked.
    ///
    /// ```
    /// use nibgravel::Drawing;
    ///
    /// let mut drawing = Drawing::new(&[[0; 3]; 4], &[[0, 1], [0, 2], [0, 3], [1, 2], [1, 3], [2, 3]]);
    /// assert_eq!(drawing.to_sheet()?.len(), 27);
    /// drawing.xyz[7] = 1_001;
    /// assert_eq!(drawing.to_sheet().unwrap_err().to_string(), "8 BadCoordinate, coordinate 7");
    /// # Ok::<(), nibgravel::Error>(())
    /// ```
    pub fn to_sheet(&self) -> Result<Vec<u8>, Error> {
        let (mut room, mut said) = ([0; SHEET_BYTES], [0; SAID]);
        match sys::write_sheet(&self.xyz, &self.ends, &mut room, &mut said) {
            0 => Ok(room[..said[2] as usize].to_vec()),
            number => Err(Error::said(number, &said)),
        }
    }

    /// Every solid that the drawing allows: [`convert`] of its lists.
    ///
    /// ```
    /// # use nibgravel::{Drawing, MOST_WORK};
    /// # let tetrahedron = Drawing::new(
    /// #     &[[0, 0, 0], [6, 0, 0], [0, 6, 0], [0, 0, 6]],
    /// #     &[[0, 1], [0, 2], [0, 3], [1, 2], [1, 3], [2, 3]],
    /// # );
    /// let report = tetrahedron.convert(MOST_WORK)?;
    /// assert_eq!(report.solids().len(), 1);
    /// # Ok::<(), nibgravel::Error>(())
    /// ```
    pub fn convert(&self, limit: u64) -> Result<Report, Error> {
        convert(&self.xyz, &self.ends, limit)
    }

    /// What a premium may be set from: [`assess`] of its lists.
    ///
    /// ```
    /// use nibgravel::{Drawing, Reading, MOST_WORK};
    ///
    /// assert_eq!(Drawing::default().assess(MOST_WORK), Reading::NotAssessed(5));
    /// ```
    pub fn assess(&self, limit: u64) -> Reading {
        assess(&self.xyz, &self.ends, limit)
    }

    /// Whether a face list names one of the drawing's solids: [`check`] of its lists.
    ///
    /// ```
    /// # use nibgravel::{Drawing, Verdict, MOST_WORK};
    /// # let tetrahedron = Drawing::new(
    /// #     &[[0, 0, 0], [6, 0, 0], [0, 6, 0], [0, 0, 6]],
    /// #     &[[0, 1], [0, 2], [0, 3], [1, 2], [1, 3], [2, 3]],
    /// # );
    /// for solid in tetrahedron.convert(MOST_WORK)?.solids() {
    ///     assert_eq!(tetrahedron.check(&solid.to_face_list()?), Verdict::Accepted);
    /// }
    /// # Ok::<(), nibgravel::Error>(())
    /// ```
    pub fn check(&self, list: &[u8]) -> Verdict {
        check(&self.xyz, &self.ends, list)
    }
}
