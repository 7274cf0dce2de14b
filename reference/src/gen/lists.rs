//! Face lists to go with a drawing: solids, selections that are none, and lists spoiled in every way.
use super::rng::Rng;
use super::sheets::flipped;
use crate::convert::Answer;
use crate::drawing::Loop;
use crate::face_list::{pack_faces, solid_faces};
use crate::fast::{self, convert, drawing_rules, Members, Passed, Tables, Walk};
use crate::numbers::*;
use crate::source::Source;
use crate::vector::sides;

/// Of the work of drawings whose solids are sent.
pub const LIMIT: u64 = 200;

/// A packed face list, good or bad, for this drawing.
pub fn any_list(r: &mut Rng, source: Source) -> Vec<u8> {
    let Ok(passed) = drawing_rules(source) else {
        // The drawing's refusal comes before a look at the list, whatever its shape.
        let list = pack_faces(&[vec![0, 1, 2], vec![0, 1, 3], vec![0, 2, 3], vec![1, 2, 3]]);
        return list[..r.count(0, list.len())].to_vec();
    };
    let mut faces = any_faces(r, source, &passed);
    from_any_corners(r, &mut faces);
    if r.chance(60) {
        r.shuffle(&mut faces);
    }
    for _ in 0..r.pick(&[0, 0, 0, 1, 1, 2, 3]) {
        if !faces.is_empty() {
            spoil_faces(r, &passed, &mut faces);
        }
    }
    spoiled_bytes(r, pack_faces(&faces))
}

/// Each face from any of its corners.
pub fn from_any_corners(r: &mut Rng, faces: &mut [Loop]) {
    for face in faces {
        let start = r.below(face.len());
        face.rotate_left(start);
    }
}

/// The faces of each solid of a report, as they are sent; none where there is no report.
pub fn sent_solids(source: Source, limit: u64) -> Vec<Vec<Loop>> {
    let (mut rows, mut words) = ([0; FACE_ROOM], [0; SOLID_ROOM]);
    let Answer::Report { solids, .. } = convert(source, limit, &mut rows, &mut words) else { return vec![] };
    words.chunks(3).take(solids as usize).filter_map(|words| solid_faces(&rows, words)).collect()
}

/// Mostly as they are; or bits turned over, cut off, too long, of another edition, or with a bit set at the end.
fn spoiled_bytes(r: &mut Rng, mut list: Vec<u8>) -> Vec<u8> {
    match r.below(20) {
        0 => list = flipped(r, list),
        1 => list.truncate(r.below(list.len() + 1)),
        2 => list.extend(vec![0; r.count(1, 3)]),
        3 => list[0] ^= r.pick(&[0x10, 0x20, 0x80]),
        4 => list.iter_mut().last().into_iter().for_each(|byte| *byte |= 1),
        _ => {}
    }
    list
}

fn corners(l: &fast::Loop) -> Loop {
    l.ring().iter().map(|v| *v as usize).collect()
}

/// A solid, a selection that meets (i), or any set of candidates.
fn any_faces(r: &mut Rng, source: Source, passed: &Passed) -> Vec<Loop> {
    let face = |c: usize, turned: bool| {
        let mut face = corners(&passed.candidates[c]);
        if turned {
            face.reverse();
        }
        face
    };
    let mut words = [0; SOLID_ROOM];
    let answer = convert(source, LIMIT, &mut [0; FACE_ROOM], &mut words);
    let kind = r.below(10);
    if let (Answer::Report { solids, .. }, 0..=5) = (answer, kind) {
        let solid = &words[3 * r.below(solids as usize)..];
        return Members(solid[0]).map(|c| face(c, solid[1] >> c & 1 == 1)).collect();
    }
    let mut selections = vec![];
    let tables = Tables::new(&passed.drawing, &passed.candidates);
    Walk::run(&tables, &passed.candidates, LIMIT, |taken| {
        selections.push(taken);
        selections.len() == 64
    });
    if kind < 9 && !selections.is_empty() {
        let faces = Members(r.pick(&selections)).map(|c| face(c, r.chance(50))).collect();
        return directed(faces);
    }
    let some: Vec<usize> = (0..passed.candidates.len()).filter(|_| r.chance(85)).collect();
    some.into_iter().map(|c| face(c, r.chance(50))).collect()
}

/// Turns faces so that neighbours run their edge once each way, as far as that goes, piece by piece.
fn directed(mut rest: Vec<Loop>) -> Vec<Loop> {
    let runs = |face: &Loop, side: (usize, usize)| sides(face).any(|s| s == side);
    let same_way = |f: &Loop, g: &Loop| sides(f).any(|side| runs(g, side));
    let other_way = |f: &Loop, g: &Loop| sides(f).any(|(a, b)| runs(g, (b, a)));
    let mut done: Vec<Loop> = vec![];
    let mut next = 0;
    while !rest.is_empty() {
        if next == done.len() {
            done.extend(rest.pop());
        }
        let face = done[next].clone();
        next += 1;
        let (near, far) = rest.into_iter().partition(|f| same_way(&face, f) || other_way(&face, f));
        rest = far;
        done.extend(
            near.into_iter().map(|f: Loop| if same_way(&face, &f) { f.into_iter().rev().collect() } else { f }),
        );
    }
    done
}

/// A face or all turned, lost, doubled, put in, replaced by any loop, or with a corner changed or lost.
fn spoil_faces(r: &mut Rng, passed: &Passed, faces: &mut Vec<Loop>) {
    let (k, other) = (r.below(faces.len()), r.below(faces.len()));
    match r.below(9) {
        0 => faces.iter_mut().for_each(|face| face.reverse()),
        1 => faces[k].reverse(),
        2 => {
            faces.remove(k);
        }
        3 => {
            faces[k] = faces[other].clone();
            if r.chance(50) {
                faces[k].reverse();
            }
        }
        4 => faces.push(faces[k].iter().rev().copied().collect()),
        5 => {
            let corner = r.below(faces[k].len());
            faces[k][corner] = r.below(32);
        }
        6 => {
            let corner = r.below(faces[k].len());
            faces[k].remove(corner);
        }
        7 => faces[k] = corners(&r.pick(&passed.loops)),
        _ => faces.push(corners(&r.pick(&passed.candidates))),
    }
}
