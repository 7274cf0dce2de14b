//! Rows of conversions: of lent lists (`drawing`), and of sheets at the desk (`desk`).
use super::json::{refused, Object};
use super::order::{aimed, Order};
use crate::convert::{convert_most, Answer};
use crate::desk::desk;
use crate::fast;
use crate::gen::damage::{damaged_drawing, damaged_sheet};
use crate::gen::rng::Rng;
use crate::gen::sheets::{any_lists, changed};
use crate::numbers::*;
use crate::reading::{reading, Reading};
use crate::sheet::{pack_sheet, sheet_length};
use crate::source::Source;

/// Reports are most frequent; 3, 4, 6 and 7 don't arise with lists.
const AIMS: [u32; 24] = [0, 0, 0, 0, 0, 0, 1, 2, 5, 8, 9, 10, 11, 12, 13, 14, 15, 16, 17, 17, 18, 18, 19, 19];

pub struct Lent {
    pub xyz: Vec<i64>,
    pub ends: Vec<i64>,
    pub limit: u64,
    pub face_room: usize,
    pub solid_room: usize,
}

impl Lent {
    fn source(&self) -> Source<'_> {
        Source::Lists(&self.xyz, &self.ends)
    }
}

pub fn drawing_row(r: &mut Rng, order: &Order, turn: usize) -> Object {
    let aim = AIMS[turn % AIMS.len()];
    let make = |r: &mut Rng| lent(r, order, aim);
    let good = |lent: &Lent| {
        let (mut face_room, mut solid_room) = (vec![0; lent.face_room], vec![0; lent.solid_room]);
        let answer = fast::convert_most(order.cap, lent.source(), lent.limit, &mut face_room, &mut solid_room);
        let fits = order.size.admits(lent.xyz.len() / 3) || aim == BAD_COUNT;
        answer.number() == aim && fits && is_light(order, &answer)
    };
    converted(Limits { solids: order.cap, ..DOCUMENTED }, &aimed(r, make, good))
}

/// A drawing lent as two lists, with what conversion says of it.
pub fn converted(most: Limits, lent: &Lent) -> Object {
    let (mut face_room, mut solid_room) = (vec![0; lent.face_room], vec![0; lent.solid_room]);
    let answer = convert_most(most, lent.source(), lent.limit, &mut face_room, &mut solid_room);
    let row = Object::of_kind("drawing").put("xyz", &lent.xyz).put("ends", &lent.ends).put("limit", &lent.limit);
    let row = if most == DOCUMENTED { row.put("most", "documented") } else { row.put("most", &limits(most)) };
    let row = row.put("faceroom", &lent.face_room).put("solidroom", &lent.solid_room);
    row.put("answer", &conversion(&answer, &face_room, &solid_room))
        .put("reading", &read(reading(&answer, &solid_room)))
}

fn limits(most: Limits) -> Object {
    let limits = Object::default().put("loops", &most.loops).put("candidates", &most.candidates);
    limits.put("solids", &most.solids)
}

fn is_light(order: &Order, answer: &Answer) -> bool {
    match answer {
        Answer::Refused(_) => true,
        Answer::Ended { loops, work, .. } | Answer::Report { loops, work, .. } => {
            *loops <= order.size.loops && *work <= order.size.work
        }
    }
}

fn lent(r: &mut Rng, order: &Order, aim: u32) -> Lent {
    let base = order.size.drawing(r);
    let d = match aim {
        BAD_COUNT..=MANY_CANDIDATES => damaged_drawing(r, &base, aim),
        _ => changed(r, base),
    };
    let (xyz, ends) = match aim {
        BAD_COUNT..=EDGE_ORDER if r.chance(50) => any_lists(r, &d),
        _ => d.lists(),
    };
    let (face_room, solid_room) = match aim {
        NO_ROOM => r.pick(&[(831, 24), (832, 23), (831, 23), (0, 30), (900, 0)]),
        _ => r.pick(&[(832, 24), (832, 24), (840, 27)]),
    };
    let limit = match aim {
        BAD_LIMIT => r.pick(&[1_000_001, 2_000_000, u64::MAX]),
        // With too little room, a limit that would be refused doesn't come to that.
        NO_ROOM => r.pick(&[0, MOST_WORK, MOST_WORK + 1]),
        // About as high as the work is, or of no matter.
        _ if aim == TOO_LONG || r.chance(50) => {
            let most = r.pick(&[6, 30, order.size.work as i64]);
            r.range(0, most) as u64
        }
        _ => MOST_WORK,
    };
    Lent { xyz, ends, limit, face_room, solid_room }
}

fn conversion(answer: &Answer, face_room: &[u8], solid_room: &[u64]) -> Object {
    let counted = |what: &str, loops: &u32, candidates: &u32, work: &u32| {
        Object::that_is(what).put("loops", loops).put("candidates", candidates).put("work", work)
    };
    match answer {
        Answer::Refused(refusal) => refused(*refusal),
        Answer::Ended { number, loops, candidates, work } => {
            counted("ended", loops, candidates, work).put("number", number).put("place", work)
        }
        Answer::Report { loops, candidates, work, solids } => {
            let solid = |w: &[u64]| Object::default().put("taken", &w[0]).put("turned", &w[1]).put("six", &w[2]);
            let solids: Vec<Object> = solid_room.chunks(3).take(*solids as usize).map(solid).collect();
            let faces: Vec<Vec<u8>> =
                face_room.chunks(FACE_ROW).take(*candidates as usize).map(|row| row.to_vec()).collect();
            counted("report", loops, candidates, work).put("solids", &solids).put("faces", &faces)
        }
    }
}

fn read(reading: Reading) -> Object {
    match reading {
        Reading::Volume(volume) => Object::that_is("volume").put("volume", &volume).put("bits", &volume.to_bits()),
        Reading::NotAssessed(number) => Object::that_is("not assessed").put("number", &number),
    }
}

/// At the desk the limit is 1,000,000 and the cap 8; 19 is not aimed at: no drawing of so much work is known.
pub fn desk_row(r: &mut Rng, order: &Order, turn: usize) -> Object {
    let aim = [0, 0, 0, 17, if turn % 12 < 6 { 18 } else { 0 }, 3 + turn as u32 / 6 % 14][turn % 6];
    let make = |r: &mut Rng| {
        let base = order.size.drawing(r);
        match aim {
            SHEET_SHORT..=MANY_CANDIDATES => damaged_sheet(r, &base, aim),
            _ => pack_sheet(&changed(r, base)),
        }
    };
    let good = |sheet: &Vec<u8>| {
        let (mut face_room, mut solid_room) = ([0; FACE_ROOM], [0; SOLID_ROOM]);
        let answer = fast::convert(Source::Sheet(sheet), MOST_WORK, &mut face_room, &mut solid_room);
        let fits = sheet.len() <= sheet_length(order.size.vertices.1, *EDGES.end());
        answer.number() == aim && fits && is_light(order, &answer)
    };
    printed(&aimed(r, make, good))
}

/// A sheet, with what the desk prints of it.
pub fn printed(sheet: &[u8]) -> Object {
    Object::of_kind("desk").put("bytes", sheet).put("text", desk(sheet).as_str())
}
