//! Sheets and lent lists of the corpus.
use super::change::*;
use super::damage::damaged_sheet;
use super::families::FAMILIES;
use super::rng::Rng;
use crate::drawing::Drawing;
use crate::numbers::*;
use crate::sheet::pack_sheet;

/// A drawing of any family, as it is.
pub fn any_drawing(r: &mut Rng) -> Drawing {
    r.pick(FAMILIES)(r)
}

/// A drawing of any family whose counts are good and whose vertices are at most so many.
pub fn counted_drawing(r: &mut Rng, most: usize) -> Drawing {
    loop {
        let d = any_drawing(r);
        if d.vertices.len() <= most && VERTICES.contains(&d.vertices.len()) && EDGES.contains(&d.edges.len()) {
            return d;
        }
    }
}

/// A drawing moved, renumbered or edited, or not.
pub fn changed(r: &mut Rng, d: Drawing) -> Drawing {
    let d = if r.chance(30) { edited(r, &d) } else { d };
    let d = if r.chance(45) { affine(r, &d) } else { d };
    if r.chance(50) {
        renumbered(r, &d)
    } else {
        d
    }
}

/// A sheet: two in three of a drawing, the others spoiled in some way.
pub fn any_sheet(r: &mut Rng) -> Vec<u8> {
    let d = any_drawing(r);
    match r.below(20) {
        0..=12 => pack_sheet(&fitted(changed(r, d))),
        13..=16 => {
            let base = counted_drawing(r, *VERTICES.end());
            let number = r.count(SHEET_SHORT as usize, MANY_CANDIDATES as usize);
            damaged_sheet(r, &base, number as u32)
        }
        17 => flipped(r, pack_sheet(&fitted(d))),
        18 => {
            let sheet = pack_sheet(&fitted(d));
            sheet[..r.count(0, sheet.len())].to_vec()
        }
        _ => (0..r.below(231)).map(|k| if k == 0 { 0x10 | r.below(9) as u8 } else { r.word() as u8 }).collect(),
    }
}

/// One to three bits turned over.
pub fn flipped(r: &mut Rng, mut bytes: Vec<u8>) -> Vec<u8> {
    for _ in 0..r.count(1, 3) {
        let at = r.below(8 * bytes.len());
        bytes[at / 8] ^= 0x80 >> (at % 8);
    }
    bytes
}

/// Cut so that counts and coordinates fit their fields; what is past the document's limits stays so.
fn fitted(mut d: Drawing) -> Drawing {
    d.vertices.iter_mut().flatten().for_each(|c| *c = (*c).clamp(-1_000, 1_047));
    d.vertices.truncate(63);
    d.edges.truncate(127);
    d
}

/// A drawing's lists, now and then not whole or with numbers that no sheet can hold.
pub fn any_lists(r: &mut Rng, d: &Drawing) -> (Vec<i64>, Vec<i64>) {
    let (mut xyz, mut ends) = d.lists();
    for _ in 0..r.below(3) {
        match r.below(8) {
            0 => xyz.truncate(xyz.len().saturating_sub(r.count(1, 4))),
            1 => ends.truncate(ends.len().saturating_sub(r.count(1, 3))),
            2 => xyz.extend([0; 2]),
            3 => ends.push(0),
            4 | 5 if !xyz.is_empty() => {
                let k = r.below(xyz.len());
                xyz[k] = r.pick(&[1_001, -1_001, 1_000, -1_000, i64::MAX, i64::MIN]);
            }
            6 | 7 if !ends.is_empty() => {
                let k = r.below(ends.len());
                ends[k] = r.pick(&[0, 31, 32, 33, 255]);
            }
            _ => {}
        }
    }
    (xyz, ends)
}
