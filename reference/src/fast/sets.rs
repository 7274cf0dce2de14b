//! Sets as the bits of a word.

/// The members of a set, ascending.
pub struct Members(pub u64);

impl Iterator for Members {
    type Item = usize;

    #[inline]
    fn next(&mut self) -> Option<usize> {
        if self.0 == 0 {
            return None;
        }
        let lowest = self.0.trailing_zeros() as usize;
        self.0 &= self.0 - 1;
        Some(lowest)
    }
}

/// The set of 0 to n-1, for n from 1 to 64.
#[inline]
pub fn first(n: usize) -> u64 {
    u64::MAX >> (64 - n)
}

/// The set without its lowest member.
#[inline]
pub fn without_lowest(set: u64) -> u64 {
    set & set.wrapping_sub(1)
}
