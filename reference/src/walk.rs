//! The walk over taken, rejected and undecided candidates, with its count of assumptions.
use crate::solids::{Fails, Solid, Table};

#[derive(Clone, Copy, Debug, PartialEq, Eq)]
enum Mark {
    Taken,
    Rejected,
    Undecided,
}

#[derive(Clone, Copy, Debug, PartialEq, Eq)]
pub enum End {
    Exhausted,
    /// One solid more than are reported.
    TooMany,
    /// One more assumption would pass the limit.
    Limit,
}

/// What a walk met.
pub struct Walked {
    pub end: End,
    pub work: u64,
    pub solids: Vec<Solid>,
    /// Per selection that is no solid, in the order met, the test that it fails.
    pub failed: Vec<Fails>,
}

/// Walks until the branches are exhausted, or at one solid more than `most`, or at the limit.
pub fn walk(table: &Table, limit: u64, most: usize) -> Walked {
    let mut walk = Walk { table, limit, most, work: 0, solids: vec![], failed: vec![] };
    let end = walk.branch(vec![Mark::Undecided; table.candidates.len()]).unwrap_or(End::Exhausted);
    Walked { end, work: walk.work, solids: walk.solids, failed: walk.failed }
}

struct Walk<'a> {
    table: &'a Table<'a>,
    limit: u64,
    most: usize,
    work: u64,
    solids: Vec<Solid>,
    failed: Vec<Fails>,
}

impl Walk<'_> {
    /// An end stops the whole walk.
    fn branch(&mut self, mut state: Vec<Mark>) -> Option<End> {
        if !self.settled(&mut state) {
            return None;
        }
        let Some(candidate) = self.lowest_undecided(&state) else { return self.leaf(&state) };
        for assumption in [Mark::Taken, Mark::Rejected] {
            if self.work == self.limit {
                return Some(End::Limit);
            }
            self.work += 1;
            let mut next = state.clone();
            next[candidate] = assumption;
            if let Some(end) = self.branch(next) {
                return Some(end);
            }
        }
        None
    }

    /// Sweeps the edges in order until a whole sweep changes nothing; false at a contradiction.
    fn settled(&self, state: &mut [Mark]) -> bool {
        loop {
            let before = state.to_vec();
            for on in &self.table.on_edge {
                let m = on.iter().filter(|c| state[**c] == Mark::Taken).count();
                let l = on.iter().filter(|c| state[**c] == Mark::Undecided).count();
                if m > 2 || m + l < 2 {
                    return false;
                }
                let mark = match (m, m + l) {
                    (2, _) => Mark::Rejected,
                    (_, 2) => Mark::Taken,
                    _ => continue,
                };
                for c in on {
                    if state[*c] == Mark::Undecided {
                        state[*c] = mark;
                    }
                }
            }
            if before == state {
                return true;
            }
        }
    }

    /// On the lowest edge that has an undecided candidate, the lowest such candidate.
    fn lowest_undecided(&self, state: &[Mark]) -> Option<usize> {
        let on = self.table.on_edge.iter().find_map(|on| on.iter().find(|c| state[**c] == Mark::Undecided));
        on.copied()
    }

    /// With nothing undecided: tests (ii) to (v).
    fn leaf(&mut self, state: &[Mark]) -> Option<End> {
        let taken: Vec<usize> = (0..state.len()).filter(|c| state[*c] == Mark::Taken).collect();
        match self.table.test(&taken) {
            Ok(solid) => self.solids.push(solid),
            Err(fails) => self.failed.push(fails),
        }
        (self.solids.len() > self.most).then_some(End::TooMany)
    }
}
