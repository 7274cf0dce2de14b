//! What a solid is: tests (i) to (v) on a set of candidates.
use crate::clash::clash;
use crate::drawing::{Drawing, Loop};
use crate::loops::{loop_edges, runs_up};
use crate::polygon::{six_volumes, Point};
use std::cell::RefCell;
use std::collections::HashMap;

#[derive(Clone, Debug, PartialEq, Eq)]
pub struct Solid {
    /// The candidates taken, ascending.
    pub taken: Vec<usize>,
    /// Per taken face: is it run against its normal form?
    pub turned: Vec<bool>,
    pub six_volumes: i128,
}

/// The first test that a selection fails.
#[derive(Clone, Copy, Debug, PartialEq, Eq)]
pub enum Fails {
    /// (ii)
    Joined,
    /// (iii)
    Directions,
    /// (iv)
    Volume,
    /// (v)
    Clash,
}

/// A drawing's candidates and which edges they have.
pub struct Table<'a> {
    pub drawing: &'a Drawing,
    pub candidates: &'a [Loop],
    /// The edges of each candidate.
    pub edges: Vec<Vec<usize>>,
    /// The candidates on each edge, ascending.
    pub on_edge: Vec<Vec<usize>>,
    /// Pairs already tested: the walk asks for the same ones again and again.
    clashes: RefCell<HashMap<(usize, usize), bool>>,
}

impl<'a> Table<'a> {
    pub fn new(drawing: &'a Drawing, candidates: &'a [Loop]) -> Table<'a> {
        let edges: Vec<Vec<usize>> = candidates.iter().map(|c| loop_edges(drawing, c)).collect();
        let on = |e: usize| (0..candidates.len()).filter(|c| edges[*c].contains(&e)).collect();
        let on_edge = (0..drawing.edges.len()).map(on).collect();
        Table { drawing, candidates, edges, on_edge, clashes: RefCell::default() }
    }

    /// (ii) to (v) on a set for which (i) holds.
    pub fn test(&self, taken: &[usize]) -> Result<Solid, Fails> {
        let solid = self.directed(taken)?;
        if self.any_clash(taken) {
            return Err(Fails::Clash);
        }
        Ok(solid)
    }

    /// (ii) to (iv), whether faces clash or not.
    pub fn directed(&self, taken: &[usize]) -> Result<Solid, Fails> {
        let mut turned = self.directions(taken).ok_or(Fails::Joined)?;
        if !self.one_each_way(taken, &turned) {
            return Err(Fails::Directions);
        }
        let mut six_volumes = self.six_volumes(taken, &turned);
        if six_volumes == 0 {
            return Err(Fails::Volume);
        }
        if six_volumes < 0 {
            turned.iter_mut().for_each(|t| *t = !*t);
            six_volumes = self.six_volumes(taken, &turned);
        }
        Ok(Solid { taken: taken.to_vec(), turned, six_volumes })
    }

    /// (i)
    pub fn two_on_every_edge(&self, taken: &[usize]) -> bool {
        self.on_edge.iter().all(|on| on.iter().filter(|c| taken.contains(c)).count() == 2)
    }

    /// Goes from the first face across shared edges, turning each new face against the one it is met from.
    /// Nothing where a face isn't reached: (ii).
    fn directions(&self, taken: &[usize]) -> Option<Vec<bool>> {
        let mut turned: Vec<Option<bool>> = vec![None; taken.len()];
        turned[0] = Some(false);
        let mut waiting = vec![0];
        while let Some(i) = waiting.pop() {
            for e in &self.edges[taken[i]] {
                for j in 0..taken.len() {
                    if turned[j].is_none() && self.edges[taken[j]].contains(e) {
                        let same = self.runs_up(taken[i], *e) == self.runs_up(taken[j], *e);
                        turned[j] = turned[i].map(|t| t ^ same);
                        waiting.push(j);
                    }
                }
            }
        }
        turned.into_iter().collect()
    }

    /// (iii) for these directions.
    pub fn one_each_way(&self, taken: &[usize], turned: &[bool]) -> bool {
        let runs = |e: usize| {
            let faces = taken.iter().zip(turned).filter(move |(c, _)| self.edges[**c].contains(&e));
            faces.filter(|(c, t)| self.runs_up(**c, e) != **t).count()
        };
        (0..self.on_edge.len()).all(|e| runs(e) == 1)
    }

    /// Six times the signed volume for these directions.
    pub fn six_volumes(&self, taken: &[usize], turned: &[bool]) -> i128 {
        self.faces(taken, turned).map(|face| six_volumes(&face)).sum()
    }

    /// The faces in these directions.
    pub fn faces<'b>(&'b self, taken: &'b [usize], turned: &'b [bool]) -> impl Iterator<Item = Vec<Point>> + 'b {
        taken.iter().zip(turned).map(|(c, turned)| {
            let mut face = self.drawing.points(&self.candidates[*c]);
            if *turned {
                face.reverse();
            }
            face
        })
    }

    /// (v) fails.
    pub fn any_clash(&self, taken: &[usize]) -> bool {
        taken.iter().enumerate().any(|(k, f)| taken[k + 1..].iter().any(|g| self.clash(*f, *g)))
    }

    fn clash(&self, f: usize, g: usize) -> bool {
        let points = |c: usize| self.drawing.points(&self.candidates[c]);
        *self.clashes.borrow_mut().entry((f, g)).or_insert_with(|| clash(&points(f), &points(g)).is_some())
    }

    fn runs_up(&self, candidate: usize, edge: usize) -> bool {
        runs_up(self.drawing, &self.candidates[candidate], edge)
    }
}
