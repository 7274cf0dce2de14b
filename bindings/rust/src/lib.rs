//! Wire drawings of battery enclosures to every solid that they allow, an exact volume, and a verdict on a face list.
//!
//! A drawing has vertices with whole coordinates, in centimetres, and edges that join them. What is called here is the archive of the
//! proved code, by its interface for C (`include/nibgravel.h`): each function gives the answer of the customer's document for **every**
//! input, so nothing is checked before a call and any bytes and numbers may be passed. Nothing is kept between calls, and any number of
//! threads may call at once. The header says how much stack a conversion takes; the rooms that
//! are lent here are some 1 KB more.
//!
//! - [`Drawing`] is read from a sheet and written to one.
//! - [`convert`] and [`convert_sheet`] find every solid, as a [`Report`], or say why there is none, as an [`Error`].
//! - [`assess`] and [`assess_sheet`] give the [`Reading`], which alone a premium may be set from.
//! - [`check`] and [`check_sheet`] give the [`Verdict`] on a face list that someone sent.
//!
//! ```
//! use nibgravel::{Drawing, Reading, Verdict, MOST_WORK};
//!
//! let drawing = Drawing::read(include_bytes!("../../../samples/octahedron.sheet"))?;
//! assert_eq!(drawing.assess(MOST_WORK), Reading::Volume(8_000.0 / 6_000_000.0));
//!
//! let report = drawing.convert(MOST_WORK)?;
//! for solid in report.solids() {
//!     println!("six volumes {}, {} faces", solid.six_volumes(), solid.faces().count());
//!     assert_eq!(drawing.check(&solid.to_face_list()?), Verdict::Accepted);
//! }
//! # Ok::<(), nibgravel::Error>(())
//! ```
#![deny(unsafe_code)]
#![warn(missing_docs)]

mod drawing;
mod error;
mod reading;
mod report;
mod solid;
#[allow(unsafe_code)]
mod sys;
mod verdict;

pub use drawing::Drawing;
pub use error::{Error, Search};
pub use nibgravel_numbers::Number;
pub use reading::{assess, assess_sheet, Reading};
pub use report::{convert, convert_sheet, Report};
pub use solid::{write_faces, Face, Solid};
pub use verdict::{check, check_sheet, Verdict};

/// The highest work limit.
///
/// ```
/// use nibgravel::{assess, Reading, MOST_WORK};
///
/// assert_eq!(assess(&[], &[], MOST_WORK), Reading::NotAssessed(5));
/// assert_eq!(assess(&[], &[], MOST_WORK + 1), Reading::NotAssessed(2));
/// ```
pub const MOST_WORK: u64 = nibgravel_numbers::MOST_WORK;
