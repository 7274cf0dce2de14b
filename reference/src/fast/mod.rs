//! Conversion written for speed, with bit sets and 64-bit numbers: the same answers and rooms as the clear version.
mod check;
mod clash;
mod cover;
mod drawing;
mod flat;
mod leaf;
mod loops;
mod passed;
mod rules;
mod sets;
mod tables;
mod walk;

pub use check::check;
pub use clash::clashes;
pub use cover::candidates;
pub use drawing::Drawing;
pub use leaf::Leaf;
pub use loops::{find_loops, Loop};
pub use passed::{drawing_rules, Passed};
pub use rules::edges_meet;
pub use sets::Members;
pub use tables::Tables;
pub use walk::{End, Walk};

use crate::convert::Answer;
use crate::numbers::*;
use crate::source::Source;

pub fn convert(source: Source, limit: u64, face_room: &mut [u8], solid_room: &mut [u64]) -> Answer {
    convert_most(MOST_SOLIDS, source, limit, face_room, solid_room)
}

/// The same with another number of solids that are reported at most, up to 8.
pub fn convert_most(most: usize, source: Source, limit: u64, face_room: &mut [u8], solid_room: &mut [u64]) -> Answer {
    let passed = match room_and_limit(limit, face_room, solid_room).and_then(|()| drawing_rules(source)) {
        Ok(passed) => passed,
        Err(refusal) => return Answer::Refused(refusal),
    };
    let tables = Tables::new(&passed.drawing, &passed.candidates);
    let mut leaf = Leaf::new(&passed, &tables, most);
    let (end, work) = Walk::run(&tables, &passed.candidates, limit, |taken| leaf.test(taken));
    let (loops, candidates, work) = (passed.loops.len() as u32, passed.candidates.len() as u32, work as u32);
    let number = match end {
        End::Limit => TOO_LONG,
        End::Stopped => MANY,
        End::Exhausted if leaf.found == 0 => NO_SOLID,
        End::Exhausted => {
            for (candidate, row) in passed.candidates.iter().zip(face_room.chunks_exact_mut(FACE_ROW)) {
                row[0] = candidate.corners as u8;
                row[1..].copy_from_slice(&candidate.ring);
            }
            solid_room[..3 * leaf.found].copy_from_slice(&leaf.words[..3 * leaf.found]);
            return Answer::Report { loops, candidates, work, solids: leaf.found as u32 };
        }
    };
    Answer::Ended { number, loops, candidates, work }
}

fn room_and_limit(limit: u64, face_room: &[u8], solid_room: &[u64]) -> Result<(), Refusal> {
    match (face_room.len() < FACE_ROOM, solid_room.len() < SOLID_ROOM, limit > MOST_WORK) {
        (true, ..) => refuse(NO_ROOM, 0),
        (_, true, _) => refuse(NO_ROOM, 1),
        (.., true) => refuse(BAD_LIMIT, 0),
        _ => Ok(()),
    }
}
