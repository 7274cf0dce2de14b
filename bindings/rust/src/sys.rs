//! The functions of `include/nibgravel.h`, on slices: the only place with `unsafe`.
//!
//! What the header asks of a lent list is what Rust promises of every slice: its entries can be read (and written, of a `&mut` slice),
//! its address is aligned and not null, also where it is empty, it takes at most `isize::MAX` bytes, and no `&mut` slice overlaps
//! another slice of the same call. Of the contents of a list nothing is asked. The functions keep no address, call nothing back and
//! don't unwind.

// Lengths and places are 64 bits wide in the archive.
const _: () = assert!(usize::BITS == 64);

/// The declarations of the header, one for one.
mod header {
    extern "C" {
        pub fn nibgravel_read_sheet(
            sheet: *const u8,
            sheet_len: usize,
            xyz: *mut i64,
            xyz_len: usize,
            ends: *mut u8,
            ends_len: usize,
            said: *mut u64,
            said_len: usize,
        ) -> u64;
        pub fn nibgravel_write_sheet(
            xyz: *const i64,
            xyz_len: usize,
            ends: *const u8,
            ends_len: usize,
            room: *mut u8,
            room_len: usize,
            said: *mut u64,
            said_len: usize,
        ) -> u64;
        pub fn nibgravel_convert(
            xyz: *const i64,
            xyz_len: usize,
            ends: *const u8,
            ends_len: usize,
            limit: u64,
            faces: *mut u8,
            faces_len: usize,
            solids: *mut u64,
            solids_len: usize,
            said: *mut u64,
            said_len: usize,
        ) -> u64;
        pub fn nibgravel_convert_sheet(
            sheet: *const u8,
            sheet_len: usize,
            limit: u64,
            faces: *mut u8,
            faces_len: usize,
            solids: *mut u64,
            solids_len: usize,
            said: *mut u64,
            said_len: usize,
        ) -> u64;
        pub fn nibgravel_assess(
            xyz: *const i64,
            xyz_len: usize,
            ends: *const u8,
            ends_len: usize,
            limit: u64,
            volume: *mut f64,
            volume_len: usize,
        ) -> u64;
        pub fn nibgravel_assess_sheet(
            sheet: *const u8,
            sheet_len: usize,
            limit: u64,
            volume: *mut f64,
            volume_len: usize,
        ) -> u64;
        pub fn nibgravel_write_faces(
            rows: *const u8,
            rows_len: usize,
            solid: *const u64,
            solid_len: usize,
            vertices: usize,
            edges: usize,
            room: *mut u8,
            room_len: usize,
            said: *mut u64,
            said_len: usize,
        ) -> u64;
        pub fn nibgravel_check(
            xyz: *const i64,
            xyz_len: usize,
            ends: *const u8,
            ends_len: usize,
            list: *const u8,
            list_len: usize,
            said: *mut u64,
            said_len: usize,
        ) -> u64;
        pub fn nibgravel_check_sheet(
            sheet: *const u8,
            sheet_len: usize,
            list: *const u8,
            list_len: usize,
            said: *mut u64,
            said_len: usize,
        ) -> u64;
    }
}

pub fn read_sheet(sheet: &[u8], xyz: &mut [i64], ends: &mut [u8], said: &mut [u64]) -> u64 {
    // SAFETY: each address and length is of one slice that lives through the call; the three written ones are borrowed alone.
    unsafe {
        header::nibgravel_read_sheet(
            sheet.as_ptr(),
            sheet.len(),
            xyz.as_mut_ptr(),
            xyz.len(),
            ends.as_mut_ptr(),
            ends.len(),
            said.as_mut_ptr(),
            said.len(),
        )
    }
}

pub fn write_sheet(xyz: &[i64], ends: &[u8], room: &mut [u8], said: &mut [u64]) -> u64 {
    // SAFETY: each address and length is of one slice that lives through the call; the two written ones are borrowed alone.
    unsafe {
        header::nibgravel_write_sheet(
            xyz.as_ptr(),
            xyz.len(),
            ends.as_ptr(),
            ends.len(),
            room.as_mut_ptr(),
            room.len(),
            said.as_mut_ptr(),
            said.len(),
        )
    }
}

pub fn convert(xyz: &[i64], ends: &[u8], limit: u64, faces: &mut [u8], solids: &mut [u64], said: &mut [u64]) -> u64 {
    // SAFETY: each address and length is of one slice that lives through the call; the three written ones are borrowed alone. A
    // limit may be any number.
    unsafe {
        header::nibgravel_convert(
            xyz.as_ptr(),
            xyz.len(),
            ends.as_ptr(),
            ends.len(),
            limit,
            faces.as_mut_ptr(),
            faces.len(),
            solids.as_mut_ptr(),
            solids.len(),
            said.as_mut_ptr(),
            said.len(),
        )
    }
}

pub fn convert_sheet(sheet: &[u8], limit: u64, faces: &mut [u8], solids: &mut [u64], said: &mut [u64]) -> u64 {
    // SAFETY: each address and length is of one slice that lives through the call; the three written ones are borrowed alone. A
    // limit may be any number.
    unsafe {
        header::nibgravel_convert_sheet(
            sheet.as_ptr(),
            sheet.len(),
            limit,
            faces.as_mut_ptr(),
            faces.len(),
            solids.as_mut_ptr(),
            solids.len(),
            said.as_mut_ptr(),
            said.len(),
        )
    }
}

pub fn assess(xyz: &[i64], ends: &[u8], limit: u64, volume: &mut [f64]) -> u64 {
    // SAFETY: each address and length is of one slice that lives through the call; the written one is borrowed alone. A limit may be
    // any number.
    unsafe {
        header::nibgravel_assess(
            xyz.as_ptr(),
            xyz.len(),
            ends.as_ptr(),
            ends.len(),
            limit,
            volume.as_mut_ptr(),
            volume.len(),
        )
    }
}

pub fn assess_sheet(sheet: &[u8], limit: u64, volume: &mut [f64]) -> u64 {
    // SAFETY: each address and length is of one slice that lives through the call; the written one is borrowed alone. A limit may be
    // any number.
    unsafe { header::nibgravel_assess_sheet(sheet.as_ptr(), sheet.len(), limit, volume.as_mut_ptr(), volume.len()) }
}

pub fn write_faces(
    rows: &[u8],
    solid: &[u64],
    vertices: usize,
    edges: usize,
    room: &mut [u8],
    said: &mut [u64],
) -> u64 {
    // SAFETY: each address and length is of one slice that lives through the call; the two written ones are borrowed alone. The
    // counts may be any numbers.
    unsafe {
        header::nibgravel_write_faces(
            rows.as_ptr(),
            rows.len(),
            solid.as_ptr(),
            solid.len(),
            vertices,
            edges,
            room.as_mut_ptr(),
            room.len(),
            said.as_mut_ptr(),
            said.len(),
        )
    }
}

pub fn check(xyz: &[i64], ends: &[u8], list: &[u8], said: &mut [u64]) -> u64 {
    // SAFETY: each address and length is of one slice that lives through the call; the written one is borrowed alone.
    unsafe {
        header::nibgravel_check(
            xyz.as_ptr(),
            xyz.len(),
            ends.as_ptr(),
            ends.len(),
            list.as_ptr(),
            list.len(),
            said.as_mut_ptr(),
            said.len(),
        )
    }
}

pub fn check_sheet(sheet: &[u8], list: &[u8], said: &mut [u64]) -> u64 {
    // SAFETY: each address and length is of one slice that lives through the call; the written one is borrowed alone.
    unsafe {
        header::nibgravel_check_sheet(
            sheet.as_ptr(),
            sheet.len(),
            list.as_ptr(),
            list.len(),
            said.as_mut_ptr(),
            said.len(),
        )
    }
}
