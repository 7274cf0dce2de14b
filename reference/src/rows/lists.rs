//! Rows of the face-list check (`list`).
use super::json::{refused, Object};
use super::order::{aimed, Order};
use crate::check::check;
use crate::fast;
use crate::gen::damage::damaged_drawing;
use crate::gen::lists::any_list;
use crate::gen::rng::Rng;
use crate::gen::sheets::changed;
use crate::source::Source;

const AIMS: [u32; 16] = [0, 0, 0, 0, 20, 20, 21, 22, 23, 24, 25, 25, 26, 26, 27, 27];

struct Case {
    xyz: Vec<i64>,
    ends: Vec<i64>,
    list: Vec<u8>,
}

impl Case {
    fn source(&self) -> Source<'_> {
        Source::Lists(&self.xyz, &self.ends)
    }
}

pub fn list_row(r: &mut Rng, order: &Order, turn: usize) -> Object {
    // Now and then the drawing is refused, by one of 8 to 16.
    let drawing = turn % 17 == 16;
    let aim = if drawing { 8 + turn as u32 / 17 % 9 } else { AIMS[turn % 17] };
    let make = |r: &mut Rng| {
        let base = order.size.drawing(r);
        let d = if drawing { damaged_drawing(r, &base, aim) } else { changed(r, base) };
        let (xyz, ends) = d.lists();
        let list = any_list(r, Source::Lists(&xyz, &ends));
        Case { xyz, ends, list }
    };
    let good = |case: &Case| {
        let number = fast::check(case.source(), &case.list).map_or_else(|refusal| refusal.number, |()| 0);
        number == aim && order.size.admits(case.xyz.len() / 3)
    };
    let case = aimed(r, make, good);
    checked_lists(&case.xyz, &case.ends, &case.list)
}

/// A face list for a drawing lent as two lists, with what the check says of it.
pub fn checked_lists(xyz: &[i64], ends: &[i64], list: &[u8]) -> Object {
    let row = Object::of_kind("list").put("xyz", xyz).put("ends", ends).put("list", list);
    row.put("answer", &verdict(Source::Lists(xyz, ends), list))
}

/// The same for a sheet.
pub fn checked_sheet(sheet: &[u8], list: &[u8]) -> Object {
    let row = Object::of_kind("ruled").put("bytes", sheet).put("list", list);
    row.put("answer", &verdict(Source::Sheet(sheet), list))
}

fn verdict(source: Source, list: &[u8]) -> Object {
    match check(source, list) {
        Ok(()) => Object::that_is("accepted"),
        Err(refusal) => refused(refusal),
    }
}
