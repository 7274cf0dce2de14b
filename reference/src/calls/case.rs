//! A call of each function, with what it must return and leave behind.
use super::lent::{any_small, bytes, near, one_of, small, Lent, Rooms};
use super::lists::{bodies_for, list_for};
use super::said::{refused, said, written};
use super::stream::{Room, Stream};
use crate::check::check;
use crate::convert::{convert, Answer};
use crate::drawing::Drawing;
use crate::face_list::send_solid;
use crate::fast;
use crate::gen::damage::{damaged_drawing, damaged_sheet};
use crate::gen::named::named;
use crate::gen::rng::Rng;
use crate::gen::sheets::{any_lists, any_sheet, changed};
use crate::moves::Converted;
use crate::numbers::*;
use crate::reading::{reading, Reading};
use crate::sheet::{pack_sheet, read_sheet, sheet_length, write_sheet};
use crate::source::Source;

/// The functions' numbers in a stream.
pub const READ_SHEET: u8 = 0;
pub const WRITE_SHEET: u8 = 1;
pub const CONVERT: u8 = 2;
pub const CONVERT_SHEET: u8 = 3;
pub const ASSESS: u8 = 4;
pub const ASSESS_SHEET: u8 = 5;
pub const WRITE_FACES: u8 = 6;
pub const CHECK: u8 = 7;
pub const CHECK_SHEET: u8 = 8;

/// Bytes of the longest sheet.
pub const LONGEST_SHEET: usize = 215;

/// Drawings of more work than this are walked under a lower limit.
pub const MOST_CALLED_WORK: u64 = 2_000;

pub fn named_drawings() -> Vec<Drawing> {
    named().into_iter().map(|(_, d)| d).collect()
}

pub struct Case<'a> {
    /// The refusals aimed at and the named drawings take turns.
    pub turn: usize,
    pub drawings: &'a [Drawing],
}

impl Case<'_> {
    pub fn call(&self, r: &mut Rng, stream: &mut Stream, function: u8) {
        stream.call(function);
        match function {
            READ_SHEET => self.read(r, stream),
            WRITE_SHEET => self.write(r, stream),
            CONVERT | CONVERT_SHEET => self.convert(r, stream, function == CONVERT_SHEET),
            ASSESS | ASSESS_SHEET => self.assess(r, stream, function == ASSESS_SHEET),
            WRITE_FACES => self.send(r, stream),
            _ => self.check(r, stream, function == CHECK_SHEET),
        }
    }

    /// A named drawing, one of a family, or one that is aimed at a refusal.
    fn drawing(&self, r: &mut Rng) -> Drawing {
        let base = if r.chance(20) { self.drawings[self.turn % self.drawings.len()].clone() } else { small(r) };
        match r.below(10) {
            0..=3 => damaged_drawing(r, &base, BAD_COUNT + self.turn as u32 % (MANY_CANDIDATES - BAD_COUNT + 1)),
            4 => base,
            _ => changed(r, base),
        }
    }

    pub fn lent(&self, r: &mut Rng, sheet: bool) -> Lent {
        if sheet {
            return Lent::Sheet(match r.below(4) {
                0 => any_sheet(r),
                1 => {
                    let base = small(r);
                    damaged_sheet(r, &base, SHEET_SHORT + self.turn as u32 % (MANY_CANDIDATES - SHEET_SHORT + 1))
                }
                _ => pack_sheet(&self.drawing(r)),
            });
        }
        let d = self.drawing(r);
        let (xyz, ends) = if r.chance(30) { any_lists(r, &d) } else { d.lists() };
        Lent::Lists(xyz, ends)
    }

    fn read(&self, r: &mut Rng, stream: &mut Stream) {
        let lent = self.lent(r, true);
        let d = read_sheet(lent.sheet());
        let (xyz, ends) = d.as_ref().map_or((vec![], vec![]), |d| d.lists());
        let (mut points, mut links) = (near(r, xyz.len(), 3 * VERTICES.end()), near(r, ends.len(), 2 * EDGES.end()));
        let said = match d {
            Err(refusal) => refused(refusal),
            Ok(_) if points.now.len() < xyz.len() => vec![NO_ROOM as u64, 0],
            Ok(_) if links.now.len() < ends.len() => vec![NO_ROOM as u64, 1],
            Ok(d) => {
                points.write(&xyz);
                links.write(&bytes(&ends));
                vec![0, 0, d.vertices.len() as u64, d.edges.len() as u64]
            }
        };
        lent.put(stream);
        stream.room(&points);
        stream.room(&links);
        self.tell(r, stream, &said);
    }

    fn write(&self, r: &mut Rng, stream: &mut Stream) {
        let lent = self.lent(r, false);
        let Lent::Lists(xyz, ends) = &lent else { unreachable!() };
        let mut room = near(r, sheet_length(xyz.len() / 3, ends.len() / 2), LONGEST_SHEET);
        let said = written(write_sheet(xyz, ends, &mut room.now));
        lent.put(stream);
        stream.room(&room);
        self.tell(r, stream, &said);
    }

    /// A conversion's answer and rooms, by both versions.
    fn converted(&self, lent: &Lent, limit: u64, faces: &[u8], solids: &[u64]) -> Converted {
        let by = |converter| Converted::of(converter, lent.source(), limit, faces, solids);
        let (same, converted) = (by(convert), by(fast::convert));
        assert!(same == converted, "the versions differ");
        converted
    }

    /// A limit that is often about as high as the work, and sometimes too high.
    pub fn limit(&self, r: &mut Rng, lent: &Lent) -> u64 {
        let whole = fast::convert(lent.source(), MOST_CALLED_WORK, &mut [0; FACE_ROOM], &mut [0; SOLID_ROOM]);
        let work = match whole {
            Answer::Refused(_) => 0,
            Answer::Ended { work, .. } | Answer::Report { work, .. } => work as u64,
        };
        let most = if whole.number() == TOO_LONG { work } else { MOST_WORK };
        let usual = [most, most, most, most, work, work, work.saturating_sub(1), 0, 1];
        match r.below(20) {
            0 => r.pick(&[MOST_WORK + 1, u64::MAX]),
            _ => r.pick(&usual),
        }
    }

    fn convert(&self, r: &mut Rng, stream: &mut Stream, sheet: bool) {
        let lent = self.lent(r, sheet);
        let limit = self.limit(r, &lent);
        let rooms = Rooms::any(r);
        let now = self.converted(&lent, limit, &rooms.faces.now, &rooms.solids.now);
        self.tell_converted(r, stream, &lent, limit, rooms, now);
    }

    pub fn tell_converted(
        &self,
        r: &mut Rng,
        stream: &mut Stream,
        lent: &Lent,
        limit: u64,
        rooms: Rooms,
        now: Converted,
    ) {
        lent.put(stream);
        stream.number(limit);
        let said = said(&now.answer, &now.solids);
        rooms.put(stream, now);
        self.tell(r, stream, &said);
    }

    fn assess(&self, r: &mut Rng, stream: &mut Stream, sheet: bool) {
        let lent = self.lent(r, sheet);
        let limit = self.limit(r, &lent);
        let converted = self.converted(&lent, limit, &[0; FACE_ROOM], &[0; SOLID_ROOM]);
        let mut volume: Room<u64> = one_of(r, &[0, 1, 1, 1, 2]);
        let number = match reading(&converted.answer, &converted.solids) {
            Reading::Volume(v) => {
                volume.write(&[v.to_bits()]);
                0
            }
            Reading::NotAssessed(number) => number as u64,
        };
        lent.put(stream);
        stream.number(limit);
        stream.room(&volume);
        stream.number(number);
    }

    /// The rows of a report and a solid's record, or rows and words that are none; and the drawing's numbers of vertices and edges.
    pub fn to_send(&self, r: &mut Rng) -> (Vec<u8>, Vec<u64>, [usize; 2]) {
        let (mut rows, mut words) = (vec![0; FACE_ROOM], [0; SOLID_ROOM]);
        let (xyz, ends) = any_small(r).lists();
        let answer = fast::convert(Source::Lists(&xyz, &ends), 200, &mut rows, &mut words);
        let solid = r.below(SOLID_ROOM / 3);
        let mut solid = match answer {
            Answer::Report { solids, .. } => words[3 * (solid % solids as usize)..][..3].to_vec(),
            _ => vec![r.word() & r.word() & r.word(), r.word()],
        };
        match r.below(8) {
            0 => solid[0] ^= 1 << r.below(64),
            1 => solid[1] = r.word(),
            2 => rows.truncate(r.below(FACE_ROOM)),
            3 => rows[FACE_ROW * (self.turn % 8)] = r.pick(&[0, 2, 13, 255]),
            4 => rows[1 + self.turn % 60] = r.pick(&[31, 32, 255]),
            _ => {}
        }
        (rows, solid, [xyz.len() / 3, ends.len() / 2])
    }

    /// A solid sent as a face list.
    fn send(&self, r: &mut Rng, stream: &mut Stream) {
        let (rows, mut solid, counts) = self.to_send(r);
        if self.turn % 5 == 0 {
            solid.truncate(self.turn / 5 % 4);
        }
        let length = send_solid(&rows, &solid, &mut [0; 400]).unwrap_or(0);
        let mut room = near(r, length, LONGEST_LIST);
        let said = written(send_solid(&rows, &solid, &mut room.now));
        stream.list(&rows);
        stream.list(&solid);
        counts.iter().for_each(|count| stream.number(*count as u64));
        stream.room(&room);
        self.tell(r, stream, &said);
    }

    /// A drawing, and a face list to check against it.
    pub fn to_check(&self, r: &mut Rng, sheet: bool) -> (Lent, Vec<u8>) {
        let lent = match bodies_for(r, self.turn) {
            Some(d) => Lent::of(&d, sheet),
            None => self.lent(r, sheet),
        };
        let list = list_for(r, lent.source(), self.turn);
        (lent, list)
    }

    fn check(&self, r: &mut Rng, stream: &mut Stream, sheet: bool) {
        let (lent, list) = self.to_check(r, sheet);
        let verdict = fast::check(lent.source(), &list);
        assert!(verdict == check(lent.source(), &list), "the versions differ");
        self.tell_verdict(r, stream, &lent, &list, verdict);
    }

    pub fn tell_verdict(
        &self,
        r: &mut Rng,
        stream: &mut Stream,
        lent: &Lent,
        list: &[u8],
        verdict: Result<(), Refusal>,
    ) {
        lent.put(stream);
        stream.list(list);
        self.tell(r, stream, &verdict.map_or_else(refused, |()| vec![0, 0]));
    }

    /// The words that are lent for the answer, mostly enough of them, and the number that is returned.
    fn tell(&self, r: &mut Rng, stream: &mut Stream, said: &[u64]) {
        let mut words = one_of(r, &[7, 7, 7, 7, 9, 6, 3, 2, 1, 0]);
        words.write(said);
        stream.room(&words);
        stream.number(said[0]);
    }
}
