//! Rows of the sheet reader (`sheet`) and the sheet writer (`write`).
use super::json::{refused, Object};
use super::order::{aimed, Order};
use crate::fast;
use crate::gen::damage::{damaged_drawing, damaged_sheet};
use crate::gen::rng::Rng;
use crate::gen::sheets::{any_lists, changed, flipped};
use crate::numbers::*;
use crate::sheet::{pack_sheet, read_sheet, sheet_length, write_sheet};
use crate::source::Source;

fn number<T>(read: Result<T, Refusal>) -> u32 {
    read.map_or_else(|refusal| refusal.number, |_| 0)
}

/// A sheet aimed in turn at none and each of 3 to 10.
pub fn sheet_to_read(r: &mut Rng, order: &Order, turn: usize) -> Vec<u8> {
    let aim = [0, 0, 3, 4, 5, 6, 7, 8, 9, 10][turn % 10];
    let make = |r: &mut Rng| {
        let base = order.size.drawing(r);
        match aim {
            0 => pack_sheet(&changed(r, base)),
            _ if r.chance(20) => flipped(r, pack_sheet(&base)),
            _ => damaged_sheet(r, &base, aim),
        }
    };
    aimed(r, make, |sheet| number(fast::Drawing::read(Source::Sheet(sheet))) == aim)
}

pub fn sheet_row(r: &mut Rng, order: &Order, turn: usize) -> Object {
    fetched(&sheet_to_read(r, order, turn))
}

/// A sheet, with what reading gives.
pub fn fetched(sheet: &[u8]) -> Object {
    let answer = match read_sheet(sheet) {
        Ok(d) => {
            let (xyz, ends) = d.lists();
            Object::that_is("drawing").put("xyz", &xyz).put("ends", &ends)
        }
        Err(refusal) => refused(refusal),
    };
    Object::of_kind("sheet").put("bytes", sheet).put("answer", &answer)
}

pub fn write_row(r: &mut Rng, order: &Order, turn: usize) -> Object {
    let aim = [0, 0, NO_ROOM, BAD_COUNT, BAD_COORDINATE, BAD_EDGE, EDGE_ORDER][turn % 7];
    // The writer gives 1 last, so its lists are good.
    let lists_aim = if aim == NO_ROOM { 0 } else { aim };
    let make = |r: &mut Rng| {
        let base = order.size.drawing(r);
        match lists_aim {
            0 => changed(r, base).lists(),
            _ if r.chance(50) => any_lists(r, &base),
            _ => damaged_drawing(r, &base, aim).lists(),
        }
    };
    let good =
        |lists: &(Vec<i64>, Vec<i64>)| number(fast::Drawing::read(Source::Lists(&lists.0, &lists.1))) == lists_aim;
    let (xyz, ends) = aimed(r, make, good);
    let length = sheet_length(xyz.len() / 3, ends.len() / 2);
    let room = match aim {
        NO_ROOM => r.pick(&[length - 1, length / 2, 0]),
        0 => r.pick(&[length, length + 1, 230]),
        _ => r.pick(&[length, 0, 230]),
    };
    stored(&xyz, &ends, room)
}

/// A drawing lent as two lists, with what the sheet writer makes of it in so much room.
pub fn stored(xyz: &[i64], ends: &[i64], room: usize) -> Object {
    let mut bytes = vec![0; room];
    let answer = match write_sheet(xyz, ends, &mut bytes) {
        Ok(length) => Object::that_is("written").put("length", &length).put("bytes", &bytes[..length]),
        Err(refusal) => refused(refusal),
    };
    Object::of_kind("write").put("xyz", xyz).put("ends", ends).put("room", &room).put("answer", &answer)
}
