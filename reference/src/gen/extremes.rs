//! Sheets at the ends of what a sheet can hold: the smallest and the largest drawing, and each of 3 to 10 at its first
//! and its last place. Drawings with each of 11 to 14 at its first place and at the last of 32 vertices
//! or of their edges.
use super::damage::put;
use super::known::tetrahedron;
use super::limits::{all_but_three, flat_128, flat_129, nine_solids};
use super::maker::pairs;
use crate::drawing::Drawing;
use crate::numbers::*;
use crate::sheet::pack_sheet;

/// As many vertices and edges as a sheet holds.
pub fn largest() -> Drawing {
    let count = *VERTICES.end();
    let place = |i: i64| [1_000 - i, i * i - 1_000, 7 * i];
    let edges = pairs(count, |_, _| true)[..*EDGES.end()].to_vec();
    Drawing { vertices: (0..count as i64).map(place).collect(), edges }
}

pub fn extreme_sheets() -> Vec<Vec<u8>> {
    let (small, large) = (pack_sheet(&tetrahedron()), pack_sheet(&largest()));
    let mut sheets = vec![small.clone(), large.clone(), vec![], small[..2].to_vec()];
    sheets.extend(wrong_heads(&small));
    sheets.extend(wrong_ends(&small));
    sheets.extend(wrong_ends(&large));
    sheets.extend([(0, 0), (31, 2)].map(|(vertex, axis)| {
        let mut d = largest();
        d.vertices[vertex][axis] = COORDINATE.end() + 1;
        pack_sheet(&d)
    }));
    sheets.extend(wrong_edges());
    sheets
}

/// 4 and 5.
fn wrong_heads(sheet: &[u8]) -> Vec<Vec<u8>> {
    let vertices = with_field(sheet, width::EDITION, width::VERTICES, &[0, 3, 33, 63]);
    let edges = with_field(sheet, width::EDITION + width::VERTICES, width::EDGES, &[0, 5, 65, 127]);
    [with_field(sheet, 0, width::EDITION, &[0, 2, 15]), vertices, edges].concat()
}

/// Bytes with a field overwritten by each of some values.
pub fn with_field(bytes: &[u8], at: usize, width: usize, values: &[u32]) -> Vec<Vec<u8>> {
    values.iter().map(|value| put(bytes.to_vec(), at, width, *value)).collect()
}

/// 6 and 7: a byte less, a byte more, the last bit set.
pub fn wrong_ends(sheet: &[u8]) -> [Vec<u8>; 3] {
    let last = sheet.len() - 1;
    [sheet[..last].to_vec(), [sheet, &[0]].concat(), put(sheet.to_vec(), 8 * last + 7, 1, 1)]
}

/// 9, where an end is no vertex or the ends don't rise, and 10, where an edge is that before or lower.
fn wrong_edges() -> [Vec<u8>; 7] {
    let edges = [(0, (0, 4)), (5, (2, 31)), (0, (1, 1)), (5, (3, 3)), (1, (0, 1)), (5, (1, 3)), (5, (0, 1))];
    edges.map(|(e, edge)| {
        let mut d = tetrahedron();
        d.edges[e] = edge;
        pack_sheet(&d)
    })
}

/// 11 to 14, each at its first and at its last place. Of two vertices at one point, two edges that meet and two vertices
/// apart from the others the lower offends, so the last place of 11, 13 and 14 is the last but one.
pub fn extreme_drawings() -> [Drawing; 8] {
    let same = |v: usize| {
        let mut d = largest();
        d.vertices[v + 1] = d.vertices[v];
        d
    };
    let path = |last: usize, more: &[(usize, usize)]| {
        let edges = (0..last).map(|v| (v, v + 1)).chain(more.iter().copied()).collect();
        Drawing { edges, ..largest() }
    };
    let bodies = |edges: &[(usize, usize)], shift: i64| {
        let (small, far) = (tetrahedron().vertices, |p: [i64; 3]| p.map(|c| c + shift));
        Drawing { vertices: small.iter().flat_map(|p| [*p, far(*p)]).collect(), edges: edges.to_vec() }
    };
    let even = [(0, 2), (0, 4), (0, 6), (2, 4), (2, 6), (4, 6)];
    let odd = [(1, 3), (1, 5), (1, 7), (3, 5), (3, 7), (5, 7)];
    let mut both = [even, odd].concat();
    both.sort_unstable();
    let mut loose = tetrahedron();
    loose.vertices.insert(0, [9, 9, 9]);
    loose.edges.iter_mut().for_each(|(a, b)| (*a, *b) = (*a + 1, *b + 1));
    let crossed = Drawing { vertices: vec![[0, 0, 0], [6, 6, 0], [6, 0, 0], [0, 6, 0]], edges: pairs(4, |_, _| true) };
    [
        same(0),
        same(30),
        loose,
        path(30, &[]),
        crossed,
        path(29, &[(28, 30), (29, 31)]),
        bodies(&both, 50),
        path(29, &[(30, 31)]),
    ]
}

/// Sheets at the ends of what is refused: the extreme ones, drawings with each of 11 to 14 at its first and last place, and those at the
/// limits of 15, 16 and 18.
pub fn sheets_at_limits() -> Vec<Vec<u8>> {
    let limits = [flat_128(), flat_129(), all_but_three(false), all_but_three(true), nine_solids()];
    let drawings = extreme_drawings().into_iter().chain(limits);
    extreme_sheets().into_iter().chain(drawings.map(|d| pack_sheet(&d))).collect()
}
