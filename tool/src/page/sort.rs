//! What a row counts as, in its filter and in the counts.
use crate::ledger::UNREADABLE;
use nibgravel_numbers::Number;

/// What a row counts as.
#[derive(Clone, Copy, Debug, PartialEq, Eq, PartialOrd, Ord)]
pub enum Sort {
    Assessed,
    NotAssessed(Number),
    Unreadable,
}

impl Sort {
    /// As it stands in the row and in its filter.
    pub fn words(self) -> String {
        match self {
            Sort::Assessed => "assessed".to_string(),
            Sort::NotAssessed(number) => number.to_string(),
            Sort::Unreadable => UNREADABLE.to_string(),
        }
    }

    /// As it stands in the page's address, after `#answer=`.
    pub fn key(self) -> String {
        match self {
            Sort::Assessed => "0".to_string(),
            Sort::NotAssessed(number) => u8::from(number).to_string(),
            Sort::Unreadable => UNREADABLE.to_string(),
        }
    }
}
