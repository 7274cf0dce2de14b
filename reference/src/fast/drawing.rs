//! The drawing in fixed arrays: refusals 3 to 10.
use crate::numbers::*;
use crate::source::Source;

pub type Point = [i64; 3];

/// Also the widths of sets of vertices (u32) and of edges (u64).
pub const VERTEX_ROOM: usize = *VERTICES.end();
pub const EDGE_ROOM: usize = *EDGES.end();

pub struct Drawing {
    pub vertices: usize,
    pub edges: usize,
    pub at: [Point; VERTEX_ROOM],
    pub ends: [(u8, u8); EDGE_ROOM],
    /// Per vertex the set of its neighbours.
    pub near: [u32; VERTEX_ROOM],
}

impl Drawing {
    pub fn read(source: Source) -> Result<Drawing, Refusal> {
        match source {
            Source::Sheet(sheet) => Drawing::read_sheet(sheet),
            Source::Lists(xyz, ends) => {
                if xyz.len() % 3 != 0 || !VERTICES.contains(&(xyz.len() / 3)) {
                    return refuse(BAD_COUNT, 0);
                }
                if ends.len() % 2 != 0 || !EDGES.contains(&(ends.len() / 2)) {
                    return refuse(BAD_COUNT, 1);
                }
                Drawing::of_numbers(xyz.len() / 3, ends.len() / 2, |k| xyz[k], |k| ends[k])
            }
        }
    }

    fn read_sheet(sheet: &[u8]) -> Result<Drawing, Refusal> {
        if sheet.len() < 3 {
            return refuse(SHEET_SHORT, 0);
        }
        if field(sheet, 0, width::EDITION) != EDITION {
            return refuse(SHEET_EDITION, 0);
        }
        let edges_at = width::EDITION + width::VERTICES;
        let vertices = field(sheet, width::EDITION, width::VERTICES) as usize;
        let edges = field(sheet, edges_at, width::EDGES) as usize;
        if !VERTICES.contains(&vertices) {
            return refuse(BAD_COUNT, 0);
        }
        if !EDGES.contains(&edges) {
            return refuse(BAD_COUNT, 1);
        }
        let xyz = edges_at + width::EDGES;
        let ends = xyz + 3 * width::COORDINATE * vertices;
        let bits = ends + 2 * width::END * edges;
        if sheet.len() != bits.div_ceil(8) {
            return refuse(SHEET_LENGTH, 0);
        }
        if fill(sheet, bits) != 0 {
            return refuse(SHEET_PAD, 0);
        }
        let coordinate = |k: usize| field(sheet, xyz + width::COORDINATE * k, width::COORDINATE) as i64;
        let end = |k: usize| field(sheet, ends + width::END * k, width::END) as i64;
        Drawing::of_numbers(vertices, edges, |k| coordinate(k) + COORDINATE.start(), end)
    }

    /// Refusals 8, 9 and 10.
    #[inline]
    fn of_numbers(
        vertices: usize,
        edges: usize,
        coordinate: impl Fn(usize) -> i64,
        end: impl Fn(usize) -> i64,
    ) -> Result<Drawing, Refusal> {
        let mut d =
            Drawing { vertices, edges, at: [[0; 3]; VERTEX_ROOM], ends: [(0, 0); EDGE_ROOM], near: [0; VERTEX_ROOM] };
        for k in 0..3 * vertices {
            let c = coordinate(k);
            if !COORDINATE.contains(&c) {
                return refuse(BAD_COORDINATE, k);
            }
            d.at[k / 3][k % 3] = c;
        }
        for e in 0..edges {
            let (a, b) = (end(2 * e), end(2 * e + 1));
            if a < 0 || a >= b || b >= vertices as i64 {
                return refuse(BAD_EDGE, e);
            }
            d.ends[e] = (a as u8, b as u8);
            d.near[a as usize] |= 1 << b;
            d.near[b as usize] |= 1 << a;
        }
        match (1..edges).find(|e| d.ends[*e] <= d.ends[e - 1]) {
            Some(e) => refuse(EDGE_ORDER, e),
            None => Ok(d),
        }
    }

    /// The two ends of an edge, as vertex numbers.
    #[inline]
    pub fn ends(&self, edge: usize) -> (usize, usize) {
        let (a, b) = self.ends[edge];
        (a as usize, b as usize)
    }
}

/// The field of up to 11 bits that starts at a bit: it lies in three bytes at most. Bytes past the end count as 0.
#[inline]
pub fn field(bytes: &[u8], at: usize, width: usize) -> u32 {
    let byte = |k: usize| bytes.get(k).copied().unwrap_or(0) as u32;
    let first = at / 8;
    let three = byte(first) << 16 | byte(first + 1) << 8 | byte(first + 2);
    three >> (24 - at % 8 - width) & ((1 << width) - 1)
}

/// The bits of the last used byte past the first `bits` bits.
#[inline]
pub fn fill(bytes: &[u8], bits: usize) -> u8 {
    if bits % 8 != 0 {
        bytes[bits / 8] & 0xff >> (bits % 8)
    } else {
        0
    }
}
