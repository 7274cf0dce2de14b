//! Conversion: refusals 1 to 19 and the report.
use crate::cover::find_candidates;
use crate::drawing::{Drawing, Loop};
use crate::loops::find_loops;
use crate::numbers::*;
use crate::rules::rules_11_to_14;
use crate::solids::{Solid, Table};
use crate::source::Source;
use crate::walk::{walk, End};

#[derive(Clone, Copy, Debug, PartialEq, Eq)]
pub enum Answer {
    /// 1 to 16
    Refused(Refusal),
    /// 17 to 19; the work is the place.
    Ended {
        number: u32,
        loops: u32,
        candidates: u32,
        work: u32,
    },
    Report {
        loops: u32,
        candidates: u32,
        work: u32,
        solids: u32,
    },
}

impl Answer {
    /// The number in the table; 0 is a report.
    pub fn number(&self) -> u32 {
        match self {
            Answer::Refused(refusal) => refusal.number,
            Answer::Ended { number, .. } => *number,
            Answer::Report { .. } => 0,
        }
    }
}

/// What the drawing rules, 3 to 16, let through.
pub struct Passed {
    pub drawing: Drawing,
    pub loops: Vec<Loop>,
    pub candidates: Vec<Loop>,
}

pub fn drawing_rules(source: Source) -> Result<Passed, Refusal> {
    drawing_rules_most(DOCUMENTED, source)
}

/// The same under other limits.
pub fn drawing_rules_most(most: Limits, source: Source) -> Result<Passed, Refusal> {
    let drawing = source.read()?;
    rules_11_to_14(&drawing)?;
    let loops = find_loops(&drawing, most.loops)?;
    let candidates = find_candidates(&drawing, &loops, most.candidates)?;
    Ok(Passed { drawing, loops, candidates })
}

/// Converts a drawing into the two rooms; only a report changes them.
pub fn convert(source: Source, limit: u64, face_room: &mut [u8], solid_room: &mut [u64]) -> Answer {
    convert_most(DOCUMENTED, source, limit, face_room, solid_room)
}

/// The same under other limits.
pub fn convert_most(most: Limits, source: Source, limit: u64, face_room: &mut [u8], solid_room: &mut [u64]) -> Answer {
    let passed = match room_and_limit(limit, face_room, solid_room).and_then(|()| drawing_rules_most(most, source)) {
        Ok(passed) => passed,
        Err(refusal) => return Answer::Refused(refusal),
    };
    let table = Table::new(&passed.drawing, &passed.candidates);
    let walked = walk(&table, limit, most.solids);
    let (loops, candidates) = (passed.loops.len() as u32, passed.candidates.len() as u32);
    let work = walked.work as u32;
    let ended = |number: u32| Answer::Ended { number, loops, candidates, work };
    match walked.end {
        End::Limit => ended(TOO_LONG),
        End::TooMany => ended(MANY),
        End::Exhausted if walked.solids.is_empty() => ended(NO_SOLID),
        End::Exhausted => {
            write_faces(&passed.candidates, face_room);
            write_solids(&walked.solids, solid_room);
            Answer::Report { loops, candidates, work, solids: walked.solids.len() as u32 }
        }
    }
}

/// Refusals 1 and 2.
fn room_and_limit(limit: u64, face_room: &[u8], solid_room: &[u64]) -> Result<(), Refusal> {
    if face_room.len() < FACE_ROOM {
        return refuse(NO_ROOM, 0);
    }
    if solid_room.len() < SOLID_ROOM {
        return refuse(NO_ROOM, 1);
    }
    if limit > MOST_WORK {
        return refuse(BAD_LIMIT, 0);
    }
    Ok(())
}

/// 13 bytes per candidate.
fn write_faces(candidates: &[Loop], room: &mut [u8]) {
    for (candidate, row) in candidates.iter().zip(room.chunks_mut(FACE_ROW)) {
        row.fill(FACE_FILL);
        row[0] = candidate.len() as u8;
        for (corner, byte) in candidate.iter().zip(&mut row[1..]) {
            *byte = *corner as u8;
        }
    }
}

/// Three words per solid.
fn write_solids(solids: &[Solid], room: &mut [u64]) {
    for (solid, words) in solids.iter().zip(room.chunks_mut(3)) {
        words[0] = solid.taken.iter().fold(0, |bits, c| bits | 1 << c);
        words[1] = solid.taken.iter().zip(&solid.turned).fold(0, |bits, (c, turned)| bits | (*turned as u64) << c);
        words[2] = solid.six_volumes as u64;
    }
}
