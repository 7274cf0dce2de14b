//! A search for solids that bound no region of space. Of each drawing it takes the selections that have (i), (ii) and
//! (v), and asks whether (iii) and (iv) hold, whether a face meets the inside of another, and whether points inside and
//! outside have winding numbers of 1 and 0.
mod drawings;
mod pinched;
mod questions;
mod selections;
mod tally;
mod touch;
mod winding;

pub use drawings::any_drawing;
pub use pinched::pinched;
pub use questions::Finding;
pub use selections::Without;
pub use tally::Tally;
pub use touch::{touch, Touch};
pub use winding::{faces_met, winding, Ray};

use crate::drawing::{Drawing, Loop};
use crate::gen::rng::Rng;
use crate::solids::Table;
use std::collections::BTreeMap;
use std::fmt;

/// All that was found of one kind.
#[derive(Clone, Debug, PartialEq, Eq)]
pub struct Found {
    pub selections: u64,
    pub smallest: Example,
}

#[derive(Clone, Debug, PartialEq, Eq)]
pub struct Example {
    pub case: u64,
    pub drawing: Drawing,
    pub faces: Vec<Loop>,
}

#[derive(Clone, Debug, PartialEq, Eq)]
pub struct Hunt {
    without: Without,
    pub tally: Tally,
    pub found: BTreeMap<Finding, Found>,
}

impl Hunt {
    /// Searches so many drawings; each depends on the seed and its number alone.
    pub fn run(seed: u64, count: u64, without: Without) -> Hunt {
        let mut hunt = Hunt { without, tally: Tally::default(), found: BTreeMap::new() };
        (0..count).for_each(|case| hunt.search(seed, case));
        hunt
    }

    fn search(&mut self, seed: u64, case: u64) {
        let mut r = Rng::of_case(seed, case);
        let drawing = any_drawing(&mut r);
        let Ok(selections) = selections::selections(&drawing, self.without) else {
            self.tally.refused += 1;
            return;
        };
        self.tally.drawings += 1;
        self.tally.cut_off += selections.cut_off as u64;
        self.tally.selections += selections.met;
        self.tally.clashing += selections.met - selections.taken.len() as u64;
        let table = Table::new(&drawing, &selections.candidates);
        for taken in &selections.taken {
            let findings = questions::ask(&table, taken, &mut r, &mut self.tally);
            self.tally.findings += !findings.is_empty() as u64;
            for finding in findings {
                self.keep(finding, Example { case, drawing: drawing.clone(), faces: questions::loops(&table, taken) });
            }
        }
    }

    /// Keeps the example of the fewest edges.
    fn keep(&mut self, finding: Finding, example: Example) {
        let found = self.found.entry(finding).or_insert_with(|| Found { selections: 0, smallest: example.clone() });
        found.selections += 1;
        if example.drawing.edges.len() < found.smallest.drawing.edges.len() {
            found.smallest = example;
        }
    }
}

impl fmt::Display for Hunt {
    /// What was found, then the counts.
    fn fmt(&self, f: &mut fmt::Formatter) -> fmt::Result {
        for (finding, Found { smallest, .. }) in &self.found {
            writeln!(f, "{finding}, in case {}:", smallest.case)?;
            writeln!(f, "  xyz {:?}", smallest.drawing.vertices)?;
            writeln!(f, "  ends {:?}", smallest.drawing.edges)?;
            writeln!(f, "  faces {:?}", smallest.faces)?;
        }
        self.tally.fmt(f)?;
        self.found.iter().try_for_each(|(finding, found)| writeln!(f, "{finding}: {}", found.selections))
    }
}
