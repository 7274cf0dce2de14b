//! The drawings that are searched: mostly of few planes with many vertices in each, so that they allow many selections.
use crate::drawing::Drawing;
use crate::gen::cells::{all_edges, random_cells, skin, straightened};
use crate::gen::change::drop_loose;
use crate::gen::maker::ordered;
use crate::gen::random::{clean, lattice, meets_none};
use crate::gen::rng::Rng;
use crate::gen::sheets;

/// Of so few edges none is taken away.
const FEWEST_EDGES: usize = 7;

pub fn any_drawing(r: &mut Rng) -> Drawing {
    match r.below(6) {
        0 => small_net(r),
        1 => large_net(r),
        2 => cells_with_gaps(r),
        3 => cells_from_outside(r),
        4 => cells_with_chords(r),
        _ => sheets::any_drawing(r),
    }
}

fn small_net(r: &mut Rng) -> Drawing {
    let (count, size) = (r.count(5, 10), r.range(1, 2));
    let places = lattice(r, count, [size; 3]);
    let edges = r.count(8, 40);
    clean(r, places, edges)
}

fn large_net(r: &mut Rng) -> Drawing {
    let (count, width, height) = (r.count(7, 16), r.range(2, 3), r.range(1, 3));
    let places = lattice(r, count, [width, width, height]);
    let edges = r.count(14, 60);
    clean(r, places, edges)
}

/// All edges of some cells but a few.
fn cells_with_gaps(r: &mut Rng) -> Drawing {
    let count = r.count(2, 6);
    let mut d = all_edges(&random_cells(r, count));
    for _ in 0..r.below(6) {
        if d.edges.len() > FEWEST_EDGES {
            d.edges.remove(r.below(d.edges.len()));
        }
    }
    drop_loose(&d)
}

fn cells_from_outside(r: &mut Rng) -> Drawing {
    let count = r.count(2, 9);
    let cells = random_cells(r, count);
    let d = skin(&cells, r.chance(30));
    if r.chance(50) {
        straightened(&d)
    } else {
        d
    }
}

/// All edges of some cells, and a few between other vertices.
fn cells_with_chords(r: &mut Rng) -> Drawing {
    let count = r.count(1, 3);
    let mut d = all_edges(&random_cells(r, count));
    for _ in 0..r.count(1, 8) {
        let chord = (r.below(d.vertices.len()), r.below(d.vertices.len()));
        if chord.0 != chord.1 && meets_none(&d.vertices, &d.edges, chord) {
            d.edges.push(chord);
        }
    }
    ordered(d.vertices, d.edges)
}
