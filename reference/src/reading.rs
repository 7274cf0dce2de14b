//! The reading of a conversion's answer: a volume in cubic metres, or "not assessed" with a number.
use crate::convert::Answer;
use crate::numbers::SEVERAL;

#[derive(Clone, Copy, Debug, PartialEq)]
pub enum Reading {
    Volume(f64),
    NotAssessed(u32),
}

/// `solid_room` is the room that the conversion was given.
pub fn reading(answer: &Answer, solid_room: &[u64]) -> Reading {
    match answer {
        // Six volumes is below 2^53, so the quotient alone is rounded.
        Answer::Report { solids: 1, .. } => Reading::Volume(solid_room[2] as f64 / 6_000_000.0),
        Answer::Report { .. } => Reading::NotAssessed(SEVERAL),
        _ => Reading::NotAssessed(answer.number()),
    }
}
