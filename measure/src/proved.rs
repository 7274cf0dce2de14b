//! The stages by the proved archive.
use nibgravel_reference::numbers::*;

pub const LOOP_ROOM: usize = FACE_ROW * MOST_LOOPS;
pub const MOST_EDGES: usize = *EDGES.end();
pub const PAIRS: usize = 32 * 32;

// A slice is lent as its address and its length, an array as its address.
#[rustfmt::skip]
extern "C" {
    fn measured_rules(xyz: *const i64, xyz_len: usize, ends: *const u8, ends_len: usize) -> u64;
    fn measured_loops(
        xyz: *const i64, xyz_len: usize, ends: *const u8, ends_len: usize, near: &[u64; 32], table: &mut [u8; LOOP_ROOM],
        planes: &mut [u64; MOST_LOOPS], corners: &mut [u64; MOST_LOOPS], sides: &mut [u64; MOST_LOOPS],
    ) -> usize;
    fn measured_candidates(
        xyz: *const i64, xyz_len: usize, ends: *const u8, ends_len: usize, table: *const u8, table_len: usize, n: usize,
        corners: &[u64; MOST_LOOPS], sides: &[u64; MOST_LOOPS], planes: &[u64; MOST_LOOPS], rows: &mut [u8; FACE_ROOM],
        kept_corners: &mut [u64; MOST_CANDIDATES], kept_sides: &mut [u64; MOST_CANDIDATES],
    ) -> usize;
    fn measured_clashes(
        xyz: *const i64, xyz_len: usize, rows: &[u8; FACE_ROOM], n: usize, near: &[u64; 32], number: &[u8; PAIRS],
        corners: &[u64; MOST_CANDIDATES], sides: &[u64; MOST_CANDIDATES], on: &mut [u64; MOST_EDGES], up: &mut [u64; MOST_EDGES],
        clashes: &mut [u64; MOST_CANDIDATES], sixes: &mut [i64; MOST_CANDIDATES],
    );
    fn measured_walk(
        on: &[u64; MOST_EDGES], up: &[u64; MOST_EDGES], e: usize, sides: &[u64; MOST_CANDIDATES],
        clashes: &[u64; MOST_CANDIDATES], sixes: &[i64; MOST_CANDIDATES], n: usize, limit: u64, out: &mut [u64; SOLID_ROOM],
    ) -> u64;
    fn measured_conversion(
        xyz: *const i64, xyz_len: usize, ends: *const u8, ends_len: usize, limit: u64, faces: *mut u8, faces_len: usize,
        solids: *mut u64, solids_len: usize,
    ) -> u64;
}

/// The two lists of a drawing, its neighbour words, and the numbers of its edges by their ends.
pub struct Lists {
    pub xyz: Vec<i64>,
    pub ends: Vec<u8>,
    pub near: [u64; 32],
    pub number: [u8; PAIRS],
}

/// The loops, with what is known of each.
pub struct Loops {
    pub count: usize,
    pub table: [u8; LOOP_ROOM],
    pub planes: [u64; MOST_LOOPS],
    pub corners: [u64; MOST_LOOPS],
    pub sides: [u64; MOST_LOOPS],
}

/// The candidates, with the words of each.
pub struct Faces {
    pub count: usize,
    pub rows: [u8; FACE_ROOM],
    pub corners: [u64; MOST_CANDIDATES],
    pub sides: [u64; MOST_CANDIDATES],
}

/// What the walk is lent: two words for each edge, and of each candidate those it clashes with and its part of six volumes.
pub struct Tables {
    pub on: [u64; MOST_EDGES],
    pub up: [u64; MOST_EDGES],
    pub clashes: [u64; MOST_CANDIDATES],
    pub sixes: [i64; MOST_CANDIDATES],
}

/// The two rooms that a conversion writes to.
#[derive(Debug, PartialEq)]
pub struct Rooms {
    pub faces: [u8; FACE_ROOM],
    pub solids: [u64; SOLID_ROOM],
}

pub const NO_LOOPS: Loops = Loops {
    count: 0,
    table: [0; LOOP_ROOM],
    planes: [0; MOST_LOOPS],
    corners: [0; MOST_LOOPS],
    sides: [0; MOST_LOOPS],
};

pub const NO_FACES: Faces =
    Faces { count: 0, rows: [0; FACE_ROOM], corners: [0; MOST_CANDIDATES], sides: [0; MOST_CANDIDATES] };

pub const NO_TABLES: Tables =
    Tables { on: [0; MOST_EDGES], up: [0; MOST_EDGES], clashes: [0; MOST_CANDIDATES], sixes: [0; MOST_CANDIDATES] };

pub const NO_ROOMS: Rooms = Rooms { faces: [0; FACE_ROOM], solids: [0; SOLID_ROOM] };

#[no_mangle]
#[inline(never)]
pub fn proved_rules(d: &Lists) -> u64 {
    unsafe { measured_rules(d.xyz.as_ptr(), d.xyz.len(), d.ends.as_ptr(), d.ends.len()) }
}

#[no_mangle]
#[inline(never)]
#[rustfmt::skip]
pub fn proved_loops(d: &Lists, l: &mut Loops) {
    let (x, e) = (&d.xyz, &d.ends);
    let (t, p, c, s) = (&mut l.table, &mut l.planes, &mut l.corners, &mut l.sides);
    l.count = unsafe { measured_loops(x.as_ptr(), x.len(), e.as_ptr(), e.len(), &d.near, t, p, c, s) };
}

#[no_mangle]
#[inline(never)]
#[rustfmt::skip]
pub fn proved_candidates(d: &Lists, l: &Loops, f: &mut Faces) {
    let (x, e, t) = (&d.xyz, &d.ends, &l.table);
    f.count = unsafe {
        measured_candidates(
            x.as_ptr(), x.len(), e.as_ptr(), e.len(), t.as_ptr(), t.len(), l.count,
            &l.corners, &l.sides, &l.planes, &mut f.rows, &mut f.corners, &mut f.sides,
        )
    };
}

#[no_mangle]
#[inline(never)]
#[rustfmt::skip]
pub fn proved_clashes(d: &Lists, f: &Faces, t: &mut Tables) {
    let (x, n) = (&d.xyz, f.count);
    let (on, up, c, s) = (&mut t.on, &mut t.up, &mut t.clashes, &mut t.sixes);
    unsafe {
        measured_clashes(x.as_ptr(), x.len(), &f.rows, n, &d.near, &d.number, &f.corners, &f.sides, on, up, c, s)
    }
}

/// The work of the whole walk; the words of the solids go into `out`.
#[no_mangle]
#[inline(never)]
pub fn proved_walk(t: &Tables, edges: usize, f: &Faces, out: &mut [u64; SOLID_ROOM]) -> u64 {
    unsafe { measured_walk(&t.on, &t.up, edges, &f.sides, &t.clashes, &t.sixes, f.count, MOST_WORK, out) }
}

/// The work of a conversion, or the number that refuses it.
#[no_mangle]
#[inline(never)]
#[rustfmt::skip]
pub fn proved_conversion(d: &Lists, r: &mut Rooms) -> u64 {
    let (x, e, f, s) = (&d.xyz, &d.ends, &mut r.faces, &mut r.solids);
    unsafe {
        measured_conversion(x.as_ptr(), x.len(), e.as_ptr(), e.len(), MOST_WORK, f.as_mut_ptr(), f.len(), s.as_mut_ptr(), s.len())
    }
}
