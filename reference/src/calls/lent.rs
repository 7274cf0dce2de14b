//! What calls lend: drawings, and rooms of good and bad lengths.
use super::stream::{Entry, Room, Stream};
use crate::drawing::Drawing;
use crate::gen::rng::Rng;
use crate::gen::sheets::{changed, counted_drawing};
use crate::moves::{Converted, Move};
use crate::numbers::{FACE_ROOM, SOLID_ROOM};
use crate::sheet::{pack_sheet, read_sheet, write_sheet};
use crate::source::Source;

/// A drawing as it is lent.
pub enum Lent {
    Sheet(Vec<u8>),
    Lists(Vec<i64>, Vec<i64>),
}

impl Lent {
    /// A drawing, on a sheet or as lists.
    pub fn of(d: &Drawing, sheet: bool) -> Lent {
        if sheet {
            return Lent::Sheet(pack_sheet(d));
        }
        let (xyz, ends) = d.lists();
        Lent::Lists(xyz, ends)
    }

    pub fn source(&self) -> Source<'_> {
        match self {
            Lent::Sheet(sheet) => Source::Sheet(sheet),
            Lent::Lists(xyz, ends) => Source::Lists(xyz, ends),
        }
    }

    /// Of a drawing that was lent as a sheet.
    pub fn sheet(&self) -> &[u8] {
        match self {
            Lent::Sheet(sheet) => sheet,
            Lent::Lists(..) => unreachable!(),
        }
    }

    /// Its coordinates; none of a sheet that is refused.
    pub fn coordinates(&self) -> Option<Vec<i64>> {
        match self {
            Lent::Sheet(sheet) => read_sheet(sheet).ok().map(|d| d.lists().0),
            Lent::Lists(xyz, _) => Some(xyz.clone()),
        }
    }

    /// The same with its vertices moved.
    pub fn moved(&self, by: &Move) -> Option<Lent> {
        match self {
            Lent::Lists(xyz, ends) => Some(Lent::Lists(by.coordinates(xyz), ends.clone())),
            Lent::Sheet(sheet) => {
                let (xyz, ends) = read_sheet(sheet).ok()?.lists();
                let mut moved = vec![0; sheet.len()];
                write_sheet(&by.coordinates(&xyz), &ends, &mut moved).ok()?;
                Some(Lent::Sheet(moved))
            }
        }
    }

    pub fn put(&self, stream: &mut Stream) {
        match self {
            Lent::Sheet(sheet) => stream.list(sheet),
            Lent::Lists(xyz, ends) => {
                stream.list(xyz);
                stream.list(&bytes(ends));
            }
        }
    }
}

pub fn bytes(numbers: &[i64]) -> Vec<u8> {
    numbers.iter().map(|n| *n as u8).collect()
}

/// A drawing of any family, mostly with few vertices.
pub fn small(r: &mut Rng) -> Drawing {
    let most = r.pick(&[10, 12, 16, 32]);
    counted_drawing(r, most)
}

pub fn any_small(r: &mut Rng) -> Drawing {
    let d = small(r);
    changed(r, d)
}

/// A room of one of these lengths.
pub fn one_of<T: Entry>(r: &mut Rng, lengths: &[usize]) -> Room<T> {
    Room::new(r.pick(lengths), r.word() as u8)
}

/// As long as is needed, or about so, or as long as is ever needed.
pub fn near<T: Entry>(r: &mut Rng, needed: usize, most: usize) -> Room<T> {
    one_of(r, &[needed, needed, most, most, needed + 3, needed.saturating_sub(1), 0])
}

/// Mostly long enough for a report.
fn enough<T: Entry>(r: &mut Rng, needed: usize) -> Room<T> {
    match r.below(20) {
        0 => one_of(r, &[needed - 1, 0]),
        _ => one_of(r, &[needed, needed + 5]),
    }
}

/// The rooms of a conversion.
pub struct Rooms {
    pub faces: Room<u8>,
    pub solids: Room<u64>,
}

impl Rooms {
    pub fn any(r: &mut Rng) -> Rooms {
        Rooms { faces: enough(r, FACE_ROOM), solids: enough(r, SOLID_ROOM) }
    }

    /// With what a conversion leaves in them.
    pub fn put(mut self, stream: &mut Stream, now: Converted) {
        (self.faces.now, self.solids.now) = (now.faces, now.solids);
        stream.room(&self.faces);
        stream.room(&self.solids);
    }
}
