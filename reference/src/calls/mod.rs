//! Calls of the interface for other programs, with what each must return and leave behind, by both versions.
mod case;
mod lent;
mod lists;
mod moved;
mod pipe;
mod said;
mod stream;

pub use moved::{moved, KINDS};
pub use pipe::{requests, Pipe};

use crate::gen::rng::Rng;
use case::{
    named_drawings, Case, ASSESS, ASSESS_SHEET, CHECK, CHECK_SHEET, CONVERT, CONVERT_SHEET, READ_SHEET, WRITE_FACES,
    WRITE_SHEET,
};
use stream::Stream;

/// The order in which the functions take turns: every second call is of the check.
const TURNS: [u8; 14] = [
    READ_SHEET,
    CHECK,
    WRITE_SHEET,
    CHECK_SHEET,
    CONVERT,
    CHECK,
    CONVERT_SHEET,
    CHECK_SHEET,
    ASSESS,
    CHECK,
    ASSESS_SHEET,
    CHECK_SHEET,
    WRITE_FACES,
    CHECK,
];

/// So many calls.
pub fn calls(seed: u64, count: u64) -> Vec<u8> {
    let drawings = named_drawings();
    let mut stream = Stream::default();
    for k in 0..count as usize {
        let mut r = Rng::of_case(seed, k as u64);
        let case = Case { turn: k / TURNS.len(), drawings: &drawings };
        case.call(&mut r, &mut stream, TURNS[k % TURNS.len()]);
    }
    stream.bytes
}

/// So many sheets, each with a face list to check against it, as calls have them.
pub fn sheets_with_lists(seed: u64, count: u64) -> impl Iterator<Item = (Vec<u8>, Vec<u8>)> {
    let drawings = named_drawings();
    (0..count as usize).map(move |k| {
        let case = Case { turn: k, drawings: &drawings };
        let (lent, list) = case.to_check(&mut Rng::of_case(seed, k as u64), true);
        (lent.sheet().to_vec(), list)
    })
}
