//! How long lists, rooms, sheets, face lists and texts are at the most: all told from the limits and the widths of fields.
use crate::limits::{CORNERS, EDGES, FACES, MOST_CANDIDATES, SOLIDS, VERTICES};

/// Entries of the largest drawing's list of coordinates, three for each vertex.
pub const COORDINATES: usize = 3 * *VERTICES.end();
/// Entries of its list of ends, two for each edge.
pub const ENDS: usize = 2 * *EDGES.end();

/// Bytes for each candidate: its number of corners, the corners and fill.
pub const ROW: usize = 1 + *CORNERS.end();
/// What stands in a row behind the corners.
pub const FILL: u8 = 255;
/// Words for each solid: its faces, those that are turned, and six volumes.
pub const SOLID_WORDS: usize = 3;
/// Bytes of a report's room for faces.
pub const FACE_ROOM: usize = ROW * MOST_CANDIDATES;
/// Words of its room for solids.
pub const SOLID_ROOM: usize = SOLID_WORDS * *SOLIDS.end();
/// Words of what is said: a number, its place, and up to five values.
pub const SAID: usize = 2 + 5;

/// Widths of packed fields, in bits.
mod width {
    pub const EDITION: usize = 4;
    pub const VERTICES: usize = 6;
    pub const EDGES: usize = 7;
    pub const COORDINATE: usize = 11;
    pub const END: usize = 5;
    pub const FACES: usize = 6;
    pub const CORNERS: usize = 4;
}

const SHEET_BITS: usize =
    width::EDITION + width::VERTICES + width::EDGES + COORDINATES * width::COORDINATE + ENDS * width::END;
const FACE_BITS: usize = width::CORNERS + *CORNERS.end() * width::END;
const LIST_BITS: usize = width::EDITION + width::FACES + *FACES.end() * FACE_BITS;

/// Bytes of the longest sheet.
pub const SHEET_BYTES: usize = SHEET_BITS.div_ceil(8);
/// Bytes of the longest face list.
pub const LIST_BYTES: usize = LIST_BITS.div_ceil(8);

/// Digits of the highest number of 64 bits.
const DIGITS: usize = 20;
const HEAD: usize = "wire  \nloops  candidates \nwork \nsolids \n".len() + 6 * DIGITS;
const SOLID: usize = "solid  sixvolumes  faces\n".len() + 2 * DIGITS + MOST_CANDIDATES * " +63".len();

/// Bytes that no text of the desk is longer than.
pub const TEXT_BYTES: usize = HEAD + *SOLIDS.end() * SOLID;

#[cfg(test)]
mod tests {
    use super::*;

    #[test]
    fn lengths_are_those_of_the_rules_and_of_the_pipe() {
        let rules = include_str!("../../docs/RULES.md");
        assert!(rules.contains(&format!("{SHEET_BYTES} for the largest drawing")));
        assert!(rules.contains(&format!("under {FACE_ROOM} bytes for faces; under {SOLID_ROOM} words for solids")));
        assert!(rules.contains(&format!("for each candidate, {ROW} bytes")));
        let pipe = include_str!("../../docs/PIPE.md");
        for said in [
            format!("{COORDINATES} coordinates, a word each; {ENDS} ends, a byte each"),
            format!("{FACE_ROOM} bytes for faces; {SOLID_ROOM} words for solids"),
            format!("what is said: {} bytes", 8 * SAID),
            format!("{SHEET_BYTES} bytes for the sheet"),
            format!("{LIST_BYTES} bytes for the list"),
            format!("{},{} bytes for the text", TEXT_BYTES / 1_000, TEXT_BYTES % 1_000),
        ] {
            assert!(pipe.contains(&said), "{said}");
        }
    }
}
