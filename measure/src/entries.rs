//! What other programs call, by the archive for C and Rust: how many bytes of stack each call takes.
use crate::proved::{Lists, Rooms, NO_ROOMS};
use crate::stack::bytes;
use nibgravel_reference::drawing::Drawing;
use nibgravel_reference::numbers::*;
use nibgravel_reference::sheet::pack_sheet;

// As include/nibgravel.h declares them.
#[rustfmt::skip]
extern "C" {
    fn nibgravel_convert(
        xyz: *const i64, xyz_len: usize, ends: *const u8, ends_len: usize, limit: u64, faces: *mut u8, faces_len: usize,
        solids: *mut u64, solids_len: usize, said: *mut u64, said_len: usize,
    ) -> u64;
    fn nibgravel_convert_sheet(
        sheet: *const u8, sheet_len: usize, limit: u64, faces: *mut u8, faces_len: usize, solids: *mut u64, solids_len: usize,
        said: *mut u64, said_len: usize,
    ) -> u64;
    fn nibgravel_assess_sheet(sheet: *const u8, sheet_len: usize, limit: u64, volume: *mut f64, volume_len: usize) -> u64;
    fn nibgravel_write_faces(
        rows: *const u8, rows_len: usize, solid: *const u64, solid_len: usize, vertices: usize, edges: usize, room: *mut u8,
        room_len: usize, said: *mut u64, said_len: usize,
    ) -> u64;
    fn nibgravel_check_sheet(
        sheet: *const u8, sheet_len: usize, list: *const u8, list_len: usize, said: *mut u64, said_len: usize,
    ) -> u64;
}

/// The longest face list.
const LIST_BYTES: usize = 338;

/// A conversion of two lists; of a sheet a conversion, a reading, and the check of the report's first solid, or of an empty list where
/// there is no solid.
#[rustfmt::skip]
pub fn stack_of(d: &Drawing, l: &Lists) -> [usize; 4] {
    let sheet = pack_sheet(d);
    let (at, len, xyz, ends) = (sheet.as_ptr(), sheet.len(), &l.xyz, &l.ends);
    let Rooms { mut faces, mut solids } = NO_ROOMS;
    let (mut list, mut said, mut volume) = ([0; LIST_BYTES], [0; 3], [0.0]);
    let (f, s, v, t) = (faces.as_mut_ptr(), solids.as_mut_ptr(), volume.as_mut_ptr(), said.as_mut_ptr());
    unsafe {
        let of_lists = bytes(|| {
            nibgravel_convert(xyz.as_ptr(), xyz.len(), ends.as_ptr(), ends.len(), MOST_WORK, f, FACE_ROOM, s, SOLID_ROOM, t, 0)
        });
        let of_sheet = bytes(|| nibgravel_convert_sheet(at, len, MOST_WORK, f, FACE_ROOM, s, SOLID_ROOM, t, 0));
        let reading = bytes(|| nibgravel_assess_sheet(at, len, MOST_WORK, v, 1));
        nibgravel_write_faces(f, FACE_ROOM, s, 3, xyz.len() / 3, ends.len() / 2, list.as_mut_ptr(), LIST_BYTES, t, said.len());
        let check = bytes(|| nibgravel_check_sheet(at, len, list.as_ptr(), said[2] as usize, t, 0));
        [of_lists, of_sheet, reading, check]
    }
}
