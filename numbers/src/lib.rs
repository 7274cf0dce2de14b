//! Document 01's numbers, each once: what is allowed, how long it is, and the table of what comes back.
//!
//! The command (`tool/`) and the crate for Rust (`bindings/rust`) take them from here. `reference/` has its own: it shares nothing.
#![forbid(unsafe_code)]
#![warn(missing_docs)]

mod lengths;
mod limits;
mod number;
mod place;

pub use lengths::{
    COORDINATES, ENDS, FACE_ROOM, FILL, LIST_BYTES, ROW, SAID, SHEET_BYTES, SOLID_ROOM, SOLID_WORDS, TEXT_BYTES,
};
pub use limits::{COORDINATE, CORNERS, EDGES, FACES, MOST_CANDIDATES, MOST_LOOPS, MOST_WORK, SOLIDS, VERTICES};
pub use number::{Number, CONVERSION, DRAWING_RULES, ENDED, LIST_RULES, SHEET_RULES};
pub use place::Place;
