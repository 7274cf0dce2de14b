//! The two ways in which a drawing is lent.
use crate::drawing::Drawing;
use crate::numbers::Refusal;
use crate::sheet::{read_lists, read_sheet};

#[derive(Clone, Copy, Debug)]
pub enum Source<'a> {
    Sheet(&'a [u8]),
    /// Coordinates and ends.
    Lists(&'a [i64], &'a [i64]),
}

impl Source<'_> {
    /// Refusals 3 to 10, as far as they arise.
    pub fn read(self) -> Result<Drawing, Refusal> {
        match self {
            Source::Sheet(sheet) => read_sheet(sheet),
            Source::Lists(xyz, ends) => read_lists(xyz, ends),
        }
    }
}
