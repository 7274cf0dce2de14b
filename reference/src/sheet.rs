//! The drawing sheet: reading it (refusals 3 to 10) and writing it (5, 8, 9, 10, then 1).
use crate::bits::{FieldReader, FieldWriter};
use crate::drawing::Drawing;
use crate::numbers::*;

/// Bytes of a sheet.
pub fn sheet_length(vertices: usize, edges: usize) -> usize {
    let head = width::EDITION + width::VERTICES + width::EDGES;
    (head + 3 * width::COORDINATE * vertices + 2 * width::END * edges).div_ceil(8)
}

/// Refusal 5.
fn counts(vertices: usize, edges: usize) -> Result<(), Refusal> {
    if !VERTICES.contains(&vertices) {
        return refuse(BAD_COUNT, 0);
    }
    if !EDGES.contains(&edges) {
        return refuse(BAD_COUNT, 1);
    }
    Ok(())
}

/// Refusals 8, 9 and 10, each over the whole list before the next, on lists whose counts are good.
fn contents(xyz: &[i64], ends: &[i64]) -> Result<Drawing, Refusal> {
    let exists = |v: i64| 0 <= v && v < xyz.len() as i64 / 3;
    let edges: Vec<(i64, i64)> = ends.chunks(2).map(|e| (e[0], e[1])).collect();
    if let Some(place) = xyz.iter().position(|c| !COORDINATE.contains(c)) {
        return refuse(BAD_COORDINATE, place);
    }
    if let Some(place) = edges.iter().position(|(a, b)| !exists(*a) || !exists(*b) || a >= b) {
        return refuse(BAD_EDGE, place);
    }
    if let Some(place) = (1..edges.len()).find(|k| edges[*k] <= edges[k - 1]) {
        return refuse(EDGE_ORDER, place);
    }
    Ok(Drawing {
        vertices: xyz.chunks(3).map(|c| [c[0], c[1], c[2]]).collect(),
        edges: edges.iter().map(|(a, b)| (*a as usize, *b as usize)).collect(),
    })
}

/// A drawing lent as two lists: refusals 5, 8, 9, 10.
pub fn read_lists(xyz: &[i64], ends: &[i64]) -> Result<Drawing, Refusal> {
    // A list that isn't whole has no count, so it is refused in the place of its count.
    let count = |list: &[i64], each: usize| if list.len() % each != 0 { 0 } else { list.len() / each };
    counts(count(xyz, 3), count(ends, 2))?;
    contents(xyz, ends)
}

/// A drawing sheet: refusals 3 to 10.
pub fn read_sheet(sheet: &[u8]) -> Result<Drawing, Refusal> {
    if sheet.len() < 3 {
        return refuse(SHEET_SHORT, 0);
    }
    let mut fields = FieldReader::new(sheet);
    let mut next = |width: usize| fields.take(width).unwrap_or(0);
    if next(width::EDITION) != EDITION {
        return refuse(SHEET_EDITION, 0);
    }
    let (vertices, edges) = (next(width::VERTICES) as usize, next(width::EDGES) as usize);
    counts(vertices, edges)?;
    if sheet.len() != sheet_length(vertices, edges) {
        return refuse(SHEET_LENGTH, 0);
    }
    let xyz: Vec<i64> = (0..3 * vertices).map(|_| next(width::COORDINATE) as i64 + COORDINATE.start()).collect();
    let ends: Vec<i64> = (0..2 * edges).map(|_| next(width::END) as i64).collect();
    let fill = fields.left();
    if fields.take(fill) != Some(0) {
        return refuse(SHEET_PAD, 0);
    }
    contents(&xyz, &ends)
}

/// Writes the sheet of a drawing lent as lists and gives its length: refusals 5, 8, 9, 10, then 1.
/// A refusal changes nothing; room past the sheet keeps its contents.
pub fn write_sheet(xyz: &[i64], ends: &[i64], room: &mut [u8]) -> Result<usize, Refusal> {
    let sheet = pack_sheet(&read_lists(xyz, ends)?);
    if room.len() < sheet.len() {
        return refuse(NO_ROOM, 0);
    }
    room[..sheet.len()].copy_from_slice(&sheet);
    Ok(sheet.len())
}

/// Packs a drawing without a look at any rule.
pub fn pack_sheet(d: &Drawing) -> Vec<u8> {
    let mut fields = FieldWriter::default();
    fields.put(width::EDITION, EDITION);
    fields.put(width::VERTICES, d.vertices.len() as u32);
    fields.put(width::EDGES, d.edges.len() as u32);
    for c in d.vertices.iter().flatten() {
        fields.put(width::COORDINATE, (c - COORDINATE.start()) as u32);
    }
    for (a, b) in &d.edges {
        fields.put(width::END, *a as u32);
        fields.put(width::END, *b as u32);
    }
    fields.bytes()
}
