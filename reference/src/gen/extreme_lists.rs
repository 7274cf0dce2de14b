//! Face lists at the ends of what a list can hold: each cause of 20, and each of 21 to 27 at the first and at the last place that is known.
use super::extremes::{with_field, wrong_ends};
use super::known::cube;
use super::limits::{based_on, faces_with};
use super::lists::{sent_solids, LIMIT};
use super::maker::{complete, ordered, pairs, Place};
use crate::drawing::{Drawing, Loop};
use crate::face_list::pack_faces;
use crate::numbers::*;
use crate::sheet::pack_sheet;
use crate::source::Source;

/// A point on the axis of the double pyramid. No two corners of its ring are in line with the axis.
fn on_axis(z: i64) -> Place {
    [990, -849, z]
}

/// A ring of corners, each joined to a point below and one above. The first edge is one of the lowest vertices, the last three are those
/// of a face. With a ring of 21 it has as many faces as a list can hold.
fn double_pyramid(ring: usize) -> Drawing {
    let corners = (0..ring as i64).map(|i| [1_000 - i, i * i - 1_000, 7 * i]);
    let vertices = [on_axis(-500)].into_iter().chain(corners).chain([on_axis(500)]).collect();
    ordered(vertices, (1..=ring).flat_map(|k| [(0, k), (k, k % ring + 1), (k, ring + 1)]))
}

/// More points above the last vertex, joined to it and to each other.
fn topped(mut d: Drawing, more: &[Place]) -> Drawing {
    let top = d.vertices.len() - 1;
    let all = [&d.vertices[top..], more].concat();
    d.edges.extend(complete(&all).edges.iter().map(|(a, b)| (a + top, b + top)));
    d.vertices.extend(more);
    d
}

/// The faces of the only solid.
fn solid(d: &Drawing) -> Vec<Loop> {
    sent_solids(Source::Sheet(&pack_sheet(d)), LIMIT).swap_remove(0)
}

/// Drawings with lists: the cube's of no good shape, then others of good shape, the longest first.
pub fn extreme_lists() -> Vec<(Drawing, Vec<u8>)> {
    let shapes = misshapen().into_iter().map(|list| (cube(), list)).collect();
    [shapes, longest(), spoiled(), vec![with_a_tail()], in_pieces().to_vec(), clashing().to_vec()].concat()
}

/// 20: the least and the most that is wrong of each field, at the first face and at the last, and of the length and the fill.
fn misshapen() -> Vec<Vec<u8>> {
    let good = faces_with(|_| {});
    let face = |k: usize| {
        vec![
            faces_with(|faces| faces[k].clear()),
            faces_with(|faces| faces[k].truncate(2)),
            faces_with(|faces| faces[k] = vec![0; 13]),
            faces_with(|faces| faces[k] = vec![0; 15]),
            faces_with(|faces| faces[k][0] = 8),
            faces_with(|faces| faces[k][3] = 31),
        ]
    };
    let editions = with_field(&good, 0, width::EDITION, &[0, 2, 15]);
    let counts = with_field(&good, width::EDITION, width::FACES, &[0, 3, 43, 63]);
    let fill_at = width::EDITION + width::FACES + 6 * (width::CORNERS + 4 * width::END);
    let fill = with_field(&good, fill_at, 1, &[1]);
    let cut = vec![vec![], good[..1].to_vec()];
    [editions, counts, face(0), face(5), cut, fill, wrong_ends(&good).to_vec()].concat()
}

/// As many bytes as a list can have, of one face, and as many faces, of one solid.
fn longest() -> Vec<(Drawing, Vec<u8>)> {
    let (corners, faces) = (based_on(*CORNERS.end()), double_pyramid(21));
    let base: Loop = (0..*CORNERS.end()).collect();
    let list = pack_faces(&vec![base; *FACES.end()]);
    vec![(corners, list), (faces.clone(), pack_faces(&solid(&faces)))]
}

/// The solid with the most faces, and at its first and last place 21, 22 and 24; 23 at its first; 26.
fn spoiled() -> Vec<(Drawing, Vec<u8>)> {
    let d = double_pyramid(21);
    let faces = solid(&d);
    let with = |change: &dyn Fn(&mut Vec<Loop>)| {
        let mut faces = faces.clone();
        change(&mut faces);
        (d.clone(), pack_faces(&faces))
    };
    let replaced = |k: usize, face: &[usize]| with(&|faces| faces[k] = face.to_vec());
    let turned = |corners: &[usize]| {
        with(&|faces| {
            let with_all = |face: &&mut Loop| corners.iter().all(|v| face.contains(v));
            faces.iter_mut().find(with_all).into_iter().for_each(|face| face.reverse())
        })
    };
    let (last, no_face) = (faces.len() - 1, [1, 2, 3]);
    vec![
        replaced(0, &no_face),
        replaced(last, &no_face),
        replaced(1, &faces[0]),
        replaced(last, &faces[0]),
        with(&|faces| faces.retain(|face| !face.contains(&0) || !face.contains(&1))),
        turned(&[0, 1]),
        turned(&[20, 21, 22]),
        with(&|faces| faces.iter_mut().for_each(|face| face.reverse())),
    ]
}

/// 23 at the last of 64 edges, which no face has.
fn with_a_tail() -> (Drawing, Vec<u8>) {
    let body = double_pyramid(21);
    let list = pack_faces(&solid(&body));
    (topped(body, &[on_axis(600)]), list)
}

/// 25: a tetrahedron over a double pyramid, with 42 faces in all. At its last place, as a piece has four faces at the least, and at its first.
fn in_pieces() -> [(Drawing, Vec<u8>); 2] {
    let (lower, more) = (double_pyramid(19), [[980, -849, 700], [990, -839, 700], [1_000, -859, 700]]);
    let top = lower.vertices.len() - 1;
    let upper = complete(&[&lower.vertices[top..], &more].concat());
    let mut faces = solid(&lower);
    faces.extend(solid(&upper).iter().map(|face| face.iter().map(|v| v + top).collect::<Loop>()));
    let last = pack_faces(&faces);
    faces[1..].reverse();
    let d = topped(lower, &more);
    [(d.clone(), last), (d, pack_faces(&faces))]
}

/// 27: two points over one triangle, the lower one outside the upper one's tent, so that one of its edges pierces a face. The three faces
/// that clash come last, and first.
fn clashing() -> [(Drawing, Vec<u8>); 2] {
    let places = vec![[0, 0, 0], [10, 0, 0], [0, 10, 0], [2, 2, 10], [0, 3, 3]];
    let d = ordered(places, pairs(5, |a, b| (a, b) != (3, 4)));
    let mut faces = [[0, 1, 3], [1, 2, 3], [0, 2, 4], [2, 0, 3], [1, 0, 4], [2, 1, 4]].map(|face| face.to_vec());
    let last = pack_faces(&faces);
    faces.reverse();
    [(d.clone(), last), (d, pack_faces(&faces))]
}
