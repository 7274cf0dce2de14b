//! Face lists for calls of the check: any list of the corpus, and solids in any order and from any corner, as they are or spoiled at
//! their first or last face.
use crate::drawing::{Drawing, Loop};
use crate::face_list::{pack_faces, read_faces};
use crate::fast::check;
use crate::gen::bodies::dented;
use crate::gen::change::{affine, renumbered};
use crate::gen::known::{nested_cubes, octahedron, two_tetrahedra};
use crate::gen::lists::{any_list, from_any_corners, sent_solids, LIMIT};
use crate::gen::maker::ordered;
use crate::gen::rng::Rng;
use crate::numbers::*;
use crate::source::Source;

/// Often a drawing some of whose selections are in pieces, or inward, or have faces that clash.
pub fn bodies_for(r: &mut Rng, turn: usize) -> Option<Drawing> {
    let d = match turn % 16 {
        0 => two_tetrahedra(),
        4 => dented([5, 4, -1]),
        8 => nested_cubes(),
        12 => octahedron(),
        2 => return Some(hinge()),
        _ => return None,
    };
    let d = if r.chance(50) { affine(r, &d) } else { d };
    Some(renumbered(r, &d))
}

/// Two tetrahedra with one edge in common, the last: all their faces together have it four times.
fn hinge() -> Drawing {
    let ends = [(0, 1), (0, 4), (0, 5), (1, 4), (1, 5), (2, 3), (2, 4), (2, 5), (3, 4), (3, 5), (4, 5)];
    ordered(vec![[5, 0, 3], [5, 4, 0], [-5, 0, 3], [-5, 4, 0], [0, 0, 0], [0, 0, 9]], ends)
}

pub fn list_for(r: &mut Rng, source: Source, turn: usize) -> Vec<u8> {
    match solid(r, source) {
        Some(faces) if turn % 3 != 0 => pack_faces(&spoiled(r, faces)),
        _ => {
            let list = any_list(r, source);
            clashing_last(r, source, list)
        }
    }
}

/// Where faces clash, half of the time the list with all of these at its end, so that the place is the last that it can be.
fn clashing_last(r: &mut Rng, source: Source, mut list: Vec<u8>) -> Vec<u8> {
    let clash = |list: &[u8]| check(source, list).err().filter(|refusal| refusal.number == CLASH).map(|c| c.place);
    if r.chance(50) {
        return list;
    }
    while let Some(place) = clash(&list) {
        let mut faces = read_faces(&list, *VERTICES.end()).expect("27 comes after 20");
        let face = faces.remove(place as usize);
        faces.push(face);
        let later = pack_faces(&faces);
        if clash(&later) <= Some(place) {
            break;
        }
        list = later;
    }
    list
}

/// A reported solid's faces, in any order and from any corners.
fn solid(r: &mut Rng, source: Source) -> Option<Vec<Loop>> {
    let mut solids = sent_solids(source, LIMIT);
    if solids.is_empty() {
        return None;
    }
    let mut faces = solids.swap_remove(r.below(solids.len()));
    from_any_corners(r, &mut faces);
    r.shuffle(&mut faces);
    Some(faces)
}

/// Half of them as they are; the others with a face changed, doubled, lost or turned, at the first or the last place, or all turned.
fn spoiled(r: &mut Rng, mut faces: Vec<Loop>) -> Vec<Loop> {
    let last = faces.len() - 1;
    let place = r.pick(&[0, last]);
    match r.below(10) {
        0 => {
            let other = r.below(faces[place].len());
            faces[place][other] = faces[place][0];
        }
        1 => {
            faces[place.max(1)] = faces[0].clone();
            faces[place.max(1)].reverse();
        }
        2 => {
            faces.remove(place);
        }
        3 => faces[place].reverse(),
        4 => faces.iter_mut().for_each(|face| face.reverse()),
        _ => {}
    }
    faces
}
