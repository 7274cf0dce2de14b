//! The walk on words: taken and undecided candidates as sets.
use super::loops::Loop;
use super::sets::{first, without_lowest, Members};
use super::tables::Tables;

#[derive(Clone, Copy, Debug, PartialEq, Eq)]
pub enum End {
    Exhausted,
    /// By the leaf.
    Stopped,
    Limit,
}

#[derive(Clone, Copy)]
struct State {
    taken: u64,
    undecided: u64,
}

/// A walk that hands every selection, as the set taken, to a leaf; the leaf answers whether to stop.
pub struct Walk<'a, L> {
    tables: &'a Tables,
    candidates: &'a [Loop],
    limit: u64,
    work: u64,
    leaf: L,
}

impl<'a, L: FnMut(u64) -> bool> Walk<'a, L> {
    /// How the walk ended, and its work.
    pub fn run(tables: &'a Tables, candidates: &'a [Loop], limit: u64, leaf: L) -> (End, u64) {
        let undecided = if candidates.is_empty() { 0 } else { first(candidates.len()) };
        let mut walk = Walk { tables, candidates, limit, work: 0, leaf };
        let end = walk.branch(State { taken: 0, undecided }, first(tables.edges));
        (end.unwrap_or(End::Exhausted), walk.work)
    }

    /// `changed` are the edges on which a candidate was decided since they were last settled.
    fn branch(&mut self, state: State, changed: u64) -> Option<End> {
        let state = self.settled(state, changed)?;
        if state.undecided == 0 {
            return (self.leaf)(state.taken).then_some(End::Stopped);
        }
        let open = self.tables.on.iter().map(|on| on & state.undecided).find(|open| *open != 0).unwrap_or(0);
        let candidate = open & open.wrapping_neg();
        let changed = self.candidates[candidate.trailing_zeros() as usize].edge_set;
        for taken in [state.taken | candidate, state.taken] {
            if self.work == self.limit {
                return Some(End::Limit);
            }
            self.work += 1;
            let end = self.branch(State { taken, undecided: state.undecided & !candidate }, changed);
            if end.is_some() {
                return end;
            }
        }
        None
    }

    /// Settles the edges changed, and those that this changes in turn; nothing at a contradiction. The order doesn't
    /// matter: what one edge decides, no other can undecide, so every order ends as the sweeps do.
    #[inline]
    fn settled(&self, mut state: State, mut changed: u64) -> Option<State> {
        while changed != 0 {
            let on = self.tables.on[changed.trailing_zeros() as usize];
            changed = without_lowest(changed);
            let (taken, open) = (on & state.taken, on & state.undecided);
            let after_first = without_lowest(taken);
            if without_lowest(after_first) != 0 {
                return None;
            }
            if after_first == 0 {
                let after_first = without_lowest(taken | open);
                if after_first == 0 {
                    return None;
                }
                if without_lowest(after_first) != 0 {
                    continue;
                }
                state.taken |= open;
            }
            state.undecided &= !open;
            changed = Members(open).fold(changed, |changed, c| changed | self.candidates[c].edge_set);
        }
        Some(state)
    }
}
