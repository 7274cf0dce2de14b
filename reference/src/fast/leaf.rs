//! The end of a branch: tests (ii) to (v) on the set taken, and the words of the solids found.
use super::clash::clashes;
use super::passed::Passed;
use super::sets::{first, Members};
use super::tables::Tables;
use crate::numbers::SOLID_ROOM;

pub struct Leaf<'a> {
    passed: &'a Passed,
    tables: &'a Tables,
    most: usize,
    /// Per candidate those it clashes with; many drawings end before anyone asks.
    pub clashes: Option<Vec<u64>>,
    pub found: usize,
    pub words: [u64; SOLID_ROOM],
}

impl<'a> Leaf<'a> {
    pub fn new(passed: &'a Passed, tables: &'a Tables, most: usize) -> Leaf<'a> {
        Leaf { passed, tables, most, clashes: None, found: 0, words: [0; SOLID_ROOM] }
    }

    /// Keeps the set's words if it is a solid. True at one solid more than are reported.
    pub fn test(&mut self, taken: u64) -> bool {
        let Some(turned) = self.directions(taken) else { return false };
        let share = |c: usize| if turned >> c & 1 == 1 { -self.tables.six[c] } else { self.tables.six[c] };
        let six_volumes: i64 = Members(taken).map(share).sum();
        if six_volumes == 0 || self.any_clash(taken) {
            return false;
        }
        if self.found == self.most {
            return true;
        }
        let turned = if six_volumes < 0 { taken & !turned } else { turned };
        self.words[3 * self.found..][..3].copy_from_slice(&[taken, turned, six_volumes.unsigned_abs()]);
        self.found += 1;
        false
    }

    /// (ii) and (iii): the faces turned when the lowest one isn't.
    fn directions(&self, taken: u64) -> Option<u64> {
        let mut joined = taken & taken.wrapping_neg();
        let (mut waiting, mut turned) = (joined, 0u64);
        while waiting != 0 {
            let face = waiting & waiting.wrapping_neg();
            waiting &= !face;
            for e in Members(self.passed.candidates[face.trailing_zeros() as usize].edge_set) {
                let other = self.tables.on[e] & taken & !face;
                if joined & other == 0 {
                    let up = self.tables.up[e] ^ turned;
                    if (up & face == 0) == (up & other == 0) {
                        turned |= other;
                    }
                    joined |= other;
                    waiting |= other;
                }
            }
        }
        let one_each_way = |e: usize| {
            let both = self.tables.on[e] & taken;
            let up = (self.tables.up[e] ^ turned) & both;
            up != 0 && up != both
        };
        (joined == taken && Members(first(self.tables.edges)).all(one_each_way)).then_some(turned)
    }

    /// (v) fails.
    fn any_clash(&mut self, taken: u64) -> bool {
        let passed = self.passed;
        let clashes = self.clashes.get_or_insert_with(|| clashes(&passed.drawing, &passed.candidates));
        Members(taken).any(|c| clashes[c] & taken != 0)
    }
}
