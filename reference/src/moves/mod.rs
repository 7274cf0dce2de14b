//! Moved drawings, and what is said of them: told from what is said of the drawing unmoved by the sentences on moves alone.
mod converted;
mod renumbering;

use crate::face_list::{pack_faces, read_faces};
use crate::gen::maker::Place;
use crate::numbers::*;
use crate::vector::{add, scale};
pub use converted::Converted;
pub use renumbering::{corresponds, from_lowest};

/// Each of these exchanges left and right.
#[derive(Clone, Copy, Debug, PartialEq, Eq)]
pub enum Step {
    /// Each x negated.
    Mirror,
    ExchangeXy,
    ExchangeYz,
}

impl Step {
    fn place(self, [x, y, z]: Place) -> Place {
        match self {
            // The lowest number has no negative. Both it and the highest are out of the range.
            Step::Mirror => [x.saturating_neg(), y, z],
            Step::ExchangeXy => [y, x, z],
            Step::ExchangeYz => [x, z, y],
        }
    }
}

/// A quarter turn round x, round y and round z.
pub const QUARTER_TURNS: [&[Step]; 3] = [
    &[Step::ExchangeXy, Step::Mirror, Step::ExchangeXy, Step::ExchangeYz],
    &[Step::Mirror, Step::ExchangeXy, Step::ExchangeYz, Step::ExchangeXy],
    &[Step::ExchangeXy, Step::Mirror],
];

/// The 48 ways in which the axes can come to lie on the axes, each in as few steps as it can.
pub fn ways() -> Vec<Vec<Step>> {
    let mut ways: Vec<Vec<Step>> = vec![vec![]];
    let image = |steps: &[Step]| Move::steps(steps).place([1, 2, 3]);
    let mut next = 0;
    while next < ways.len() {
        for step in [Step::Mirror, Step::ExchangeXy, Step::ExchangeYz] {
            let longer = [&ways[next][..], &[step]].concat();
            if ways.iter().all(|way| image(way) != image(&longer)) {
                ways.push(longer);
            }
        }
        next += 1;
    }
    ways
}

/// What is done to every vertex of a drawing. But for a mirror, all are within the range before and after.
#[derive(Clone, Debug, PartialEq, Eq)]
pub enum Move {
    Shift(Place),
    Steps(Vec<Step>),
    /// By a whole factor from 1.
    Scale(i64),
}

impl Move {
    pub fn steps(steps: &[Step]) -> Move {
        Move::Steps(steps.to_vec())
    }

    pub fn place(&self, place: Place) -> Place {
        match self {
            Move::Shift(by) => add(place, *by),
            Move::Steps(steps) => steps.iter().fold(place, |place, step| step.place(place)),
            Move::Scale(factor) => scale(*factor, place),
        }
    }

    /// A list of coordinates, each whole vertex moved; what is left of a list that isn't whole stays.
    pub fn coordinates(&self, xyz: &[i64]) -> Vec<i64> {
        let whole = xyz.chunks_exact(3);
        let rest = whole.remainder().to_vec();
        whole.flat_map(|p| self.place([p[0], p[1], p[2]])).chain(rest).collect()
    }

    /// Whether left and right are exchanged.
    fn turns(&self) -> bool {
        matches!(self, Move::Steps(steps) if steps.len() % 2 == 1)
    }

    /// What conversion says of the moved drawing where it says this of the drawing.
    pub fn converted(&self, unmoved: Converted) -> Converted {
        match self {
            Move::Scale(factor) => unmoved.with_words(|solid| solid[2] *= factor.pow(3) as u64),
            _ if self.turns() => unmoved.with_words(|solid| solid[1] = solid[0] & !solid[1]),
            _ => unmoved,
        }
    }

    /// The face list of which the check says of the moved drawing what it says of this one of the drawing: with every face turned round
    /// where left and right are exchanged. Bytes that are no faces stay.
    pub fn list(&self, list: &[u8]) -> Vec<u8> {
        match read_faces(list, *VERTICES.end()) {
            Some(mut faces) if self.turns() => {
                faces.iter_mut().for_each(|face| face[1..].reverse());
                pack_faces(&faces)
            }
            _ => list.to_vec(),
        }
    }
}
