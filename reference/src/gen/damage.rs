//! Drawings and sheets spoiled so that one refusal from 3 to 16 is aimed at (another one may come out).
use super::ambiguous::exact_count;
use super::bodies::{grid, plate};
use super::change::{affine, renumbered};
use super::known::{cube, tetrahedron};
use super::maker::{complete, ordered};
use super::random::{flat_net, places};
use super::rng::Rng;
use crate::drawing::Drawing;
use crate::numbers::*;
use crate::sheet::pack_sheet;
use crate::vector::{add, sub};

/// A sheet aimed at refusal 3 to 16.
pub fn damaged_sheet(r: &mut Rng, base: &Drawing, number: u32) -> Vec<u8> {
    let sheet = pack_sheet(base);
    let edges_at = width::EDITION + width::VERTICES;
    match number {
        SHEET_SHORT => sheet[..r.below(3)].to_vec(),
        SHEET_EDITION => put(sheet, 0, width::EDITION, r.pick(&[0, 2, 3, 9, 15])),
        BAD_COUNT => {
            let vertices = r.pick(&[0, 1, 2, 3, 33, 34, 63]);
            let edges = r.pick(&[0, 1, 4, 5, 65, 66, 127]);
            match r.below(3) {
                0 => put(sheet, width::EDITION, width::VERTICES, vertices),
                1 => put(sheet, edges_at, width::EDGES, edges),
                _ => put(put(sheet, width::EDITION, width::VERTICES, vertices), edges_at, width::EDGES, edges),
            }
        }
        SHEET_LENGTH if r.chance(50) => sheet[..r.count(3, sheet.len() - 1)].to_vec(),
        SHEET_LENGTH => [sheet, vec![0; r.count(1, 5)]].concat(),
        SHEET_PAD if r.chance(30) => {
            let number = r.pick(&[BAD_COORDINATE, BAD_EDGE, EDGE_ORDER]);
            let base = damaged_drawing(r, base, number);
            damaged_sheet(r, &base, SHEET_PAD)
        }
        SHEET_PAD => {
            // One bit of the last byte, which may be one of the last edge where there is no fill.
            let at = 8 * sheet.len() - 1 - r.below(7);
            put(sheet, at, 1, 1)
        }
        _ => pack_sheet(&damaged_drawing(r, base, number)),
    }
}

/// Overwrites a field.
pub fn put(mut sheet: Vec<u8>, at: usize, width: usize, value: u32) -> Vec<u8> {
    for k in 0..width {
        let (byte, bit) = ((at + k) / 8, 0x80 >> ((at + k) % 8));
        sheet[byte] &= !bit;
        if value >> (width - 1 - k) & 1 == 1 {
            sheet[byte] |= bit;
        }
    }
    sheet
}

/// A drawing aimed at refusal 5 or 8 to 16 whose numbers fit a sheet's fields.
pub fn damaged_drawing(r: &mut Rng, base: &Drawing, number: u32) -> Drawing {
    let mut d = base.clone();
    let (vertices, edges) = (d.vertices.len(), d.edges.len());
    match number {
        BAD_COUNT if r.chance(50) => d.vertices.resize(r.pick(&[3, 33, 34]), [7, 8, 9]),
        BAD_COUNT => d.edges.resize(r.pick(&[5, 65, 66]), (0, 1)),
        BAD_COORDINATE => {
            (0..r.count(1, 3)).for_each(|_| d.vertices[r.below(vertices)][r.below(3)] = r.pick(&[1_001, 1_002, 1_047]))
        }
        BAD_EDGE => (0..r.count(1, 3)).for_each(|_| spoil_edge(r, &mut d)),
        EDGE_ORDER if r.chance(50) => {
            let e = r.count(1, edges - 1);
            d.edges[e] = d.edges[e - 1];
        }
        EDGE_ORDER => (0..r.count(1, 2)).for_each(|_| d.edges.swap(r.below(edges), r.below(edges))),
        SAME_PLACE => (0..r.count(1, 2)).for_each(|_| d.vertices[r.below(vertices)] = d.vertices[r.below(vertices)]),
        LOOSE_VERTEX if r.chance(50) => d.vertices.insert(r.below(vertices), [r.range(-1_000, 1_000), 999, -999]),
        LOOSE_VERTEX => {
            let lost = [r.below(vertices), r.below(vertices)];
            d.edges.retain(|(a, b)| !lost.contains(a) && !lost.contains(b));
        }
        EDGE_MEETS => d = meeting(r, d),
        APART => d = apart(r, d),
        MANY_LOOPS => d = with_many_loops(r),
        _ if r.chance(30) => {
            let (points, one_more) = r.pick(&[(10, false), (8, true)]);
            d = exact_count(points, one_more)
        }
        _ => {
            let count = r.count(9, 10);
            d = complete(&places(r, count, 900));
        }
    }
    d
}

/// Ends swapped, equal, or no vertex.
fn spoil_edge(r: &mut Rng, d: &mut Drawing) {
    let e = r.below(d.edges.len());
    let (a, b) = d.edges[e];
    d.edges[e] = r.pick(&[(b, a), (a, a), (a, 31), (31, b), (a, d.vertices.len())]);
}

/// A vertex moved into an edge, an edge between any two vertices, an edge on another, or one that ends in another.
fn meeting(r: &mut Rng, mut d: Drawing) -> Drawing {
    let (a, b) = r.pick(&d.edges);
    let (p, q) = (d.vertices[a], d.vertices[b]);
    let middle = add(p, q).map(|c| c / 2);
    match r.below(4) {
        0 => {
            let moved = r.below(d.vertices.len());
            d.vertices[moved] = middle;
        }
        1 => {
            let (from, to) = (r.below(d.vertices.len()), r.below(d.vertices.len()));
            if from != to {
                d.edges.push((from, to));
            }
        }
        2 => {
            d.vertices.push(add(q, sub(q, p)));
            d.edges.push((a, d.vertices.len() - 1));
        }
        _ => {
            d.vertices.push(middle);
            d.edges.push((r.below(d.vertices.len() - 1), d.vertices.len() - 1));
        }
    }
    let d = ordered(d.vertices, d.edges);
    if r.chance(50) {
        renumbered(r, &d)
    } else {
        d
    }
}

/// Another body beside the drawing.
fn apart(r: &mut Rng, mut d: Drawing) -> Drawing {
    let other = r.pick::<fn() -> Drawing>(&[tetrahedron, cube])();
    let (count, beside) = (d.vertices.len(), d.vertices.iter().map(|p| p[0]).max().unwrap_or(0) + 1);
    d.vertices.extend(other.vertices.iter().map(|p| add(*p, [beside, 0, 0])));
    d.edges.extend(other.edges.iter().map(|(a, b)| (a + count, b + count)));
    if r.chance(70) {
        renumbered(r, &d)
    } else {
        d
    }
}

fn with_many_loops(r: &mut Rng) -> Drawing {
    let d = match r.below(6) {
        0 => complete(&places(r, 11, 900)),
        1 => exact_count(10, true),
        2 => plate(5, 5, false),
        3 => plate(4, 5, true),
        4 => grid(4, 4, 2),
        _ => flat_net(r, 64),
    };
    affine(r, &d)
}
