//! The words of a reply, eight bytes each, and what they may say.

use std::ops::RangeInclusive;

pub const WORD: usize = 8;

/// An answer, or what is wrong with the reply.
pub type Parsed<T> = Result<T, String>;

/// The word at a place counted in words.
pub fn word(bytes: &[u8], k: usize) -> u64 {
    bytes.iter().skip(k * WORD).take(WORD).fold(0, |word, byte| word << 8 | u64::from(*byte))
}

/// A value that may not be outside what is allowed.
pub fn within(what: &str, value: u64, allowed: RangeInclusive<usize>) -> Parsed<u64> {
    let (least, most) = (*allowed.start() as u64, *allowed.end() as u64);
    if (least..=most).contains(&value) {
        Ok(value)
    } else {
        Err(format!("said {value} for {what}, which is never below {least} or above {most}"))
    }
}
