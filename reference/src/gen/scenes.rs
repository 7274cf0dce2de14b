//! Drawings to try the geometry on: two polygons drawn together, and drawings at which rules 11 to 14 are aimed.
use super::damage::damaged_drawing;
use super::maker::{Maker, Place};
use super::pairs::any_pair;
use super::rng::Rng;
use super::sheets::{changed, counted_drawing};
use crate::drawing::Drawing;
use crate::fast;
use crate::numbers::*;
use crate::sheet::pack_sheet;
use crate::source::Source;

/// Can a sheet hold it?
fn fits(d: &Drawing) -> bool {
    fast::Drawing::read(Source::Sheet(&pack_sheet(d))).is_ok()
        && d.vertices.iter().flatten().all(|c| COORDINATE.contains(c))
}

/// Two polygons, each with a point over it that is joined to its corners and to the other's: a drawing that passes 3 to 16.
pub fn two_pyramids(r: &mut Rng) -> Drawing {
    loop {
        let (f, g) = any_pair(r);
        let (over_f, over_g) = (place(r), place(r));
        let mut maker = Maker::default();
        maker.ring(&f);
        maker.ring(&g);
        maker.fan(over_f, &f);
        maker.fan(over_g, &g);
        maker.line(over_f, over_g);
        let d = maker.done();
        if passes(&d) {
            return d;
        }
    }
}

fn place(r: &mut Rng) -> Place {
    std::array::from_fn(|_| r.range(-9, 9))
}

fn passes(d: &Drawing) -> bool {
    fits(d) && fast::drawing_rules(Source::Sheet(&pack_sheet(d))).is_ok()
}

/// A drawing that passes 3 to 10, aimed in turn at none and each of 11 to 14.
pub fn ruled_drawing(r: &mut Rng, turn: usize) -> Drawing {
    loop {
        let base = counted_drawing(r, *VERTICES.end());
        let d = match [0, SAME_PLACE, LOOSE_VERTEX, EDGE_MEETS, APART][turn % 5] {
            0 => changed(r, base),
            number => damaged_drawing(r, &base, number),
        };
        if fits(&d) {
            return d;
        }
    }
}
