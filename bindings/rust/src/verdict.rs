//! The check of a face list.
use crate::error::Error;
use crate::sys;
use nibgravel_numbers::SAID;

/// Checks a face list against a drawing that is lent as two lists: refusals 5, 8 to 16 and 20 to 27.
///
/// ```
/// use nibgravel::{check, convert, Verdict, MOST_WORK};
///
/// let xyz = [0, 0, 0, 6, 0, 0, 0, 6, 0, 0, 0, 6];
/// let ends = [0, 1, 0, 2, 0, 3, 1, 2, 1, 3, 2, 3];
/// let report = convert(&xyz, &ends, MOST_WORK)?;
/// let list = report.solids().next().unwrap().to_face_list()?;
/// assert_eq!(check(&xyz, &ends, &list), Verdict::Accepted);
/// # Ok::<(), nibgravel::Error>(())
/// ```
pub fn check(xyz: &[i64], ends: &[u8], list: &[u8]) -> Verdict {
    judged(|said| sys::check(xyz, ends, list, said))
}

/// Checks a face list against a sheet: refusals 3 to 16 and 20 to 27.
///
/// ```
/// use nibgravel::{check_sheet, Verdict};
///
/// let sheet = include_bytes!("../../../samples/octahedron.sheet");
/// let Verdict::Refused(error) = check_sheet(sheet, &[]) else { panic!("an empty list is no list") };
/// assert_eq!(error.to_string(), "20 ShellShape");
/// ```
pub fn check_sheet(sheet: &[u8], list: &[u8]) -> Verdict {
    judged(|said| sys::check_sheet(sheet, list, said))
}

fn judged(call: impl FnOnce(&mut [u64]) -> u64) -> Verdict {
    let mut said = [0; SAID];
    match call(&mut said) {
        0 => Verdict::Accepted,
        number => Verdict::Refused(Error::said(number, &said)),
    }
}

/// What the check says of a face list. It never has a volume: that is what [`assess`](crate::assess) says of the drawing.
///
/// ```
/// use nibgravel::{check, Verdict};
///
/// assert!(!check(&[], &[], &[]).is_accepted());
/// ```
#[derive(Clone, Copy, Debug, PartialEq, Eq, Hash)]
#[must_use]
pub enum Verdict {
    /// The list names one of the drawing's solids, with its directions.
    Accepted,
    /// The drawing (3 to 16) or the list (20 to 27) is refused.
    Refused(Error),
}

impl Verdict {
    /// Whether the list names one of the drawing's solids.
    ///
    /// ```
    /// assert!(nibgravel::Verdict::Accepted.is_accepted());
    /// ```
    pub fn is_accepted(&self) -> bool {
        *self == Verdict::Accepted
    }
}
