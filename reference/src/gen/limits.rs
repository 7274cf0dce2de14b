//! Cases at the limits of the document, and for each number of the table a drawing, a sheet or a list that it refuses.
use super::ambiguous::general;
use super::bodies::pyramid;
use super::flat::{convex, lift, Spot};
use super::known::*;
use super::maker::*;
use crate::drawing::{Drawing, Loop};
use crate::face_list::pack_faces;
use crate::sheet::pack_sheet;

fn flat(spots: &[Spot], ends: &[usize]) -> Drawing {
    ordered(lift(spots, 0, 1, [0, 0]), ends.chunks(2).map(|e| (e[0], e[1])))
}

/// Eight points in a plane, with 128 loops.
pub fn flat_128() -> Drawing {
    flat(
        &[[2, 3], [4, 5], [6, 0], [0, 4], [5, 5], [4, 4], [5, 6], [2, 2]],
        &[0, 1, 0, 3, 0, 7, 1, 3, 1, 5, 1, 6, 1, 7, 2, 4, 2, 5, 2, 6, 2, 7, 3, 6, 3, 7, 4, 5, 4, 6, 5, 6],
    )
}

/// Eight points in a plane, with 129 loops.
pub fn flat_129() -> Drawing {
    flat(
        &[[0, 1], [2, 1], [3, 3], [4, 0], [2, 3], [1, 6], [3, 1], [4, 5]],
        &[0, 1, 0, 3, 0, 5, 1, 4, 1, 5, 1, 6, 2, 3, 2, 5, 2, 6, 2, 7, 3, 6, 3, 7, 4, 5, 4, 6, 5, 6, 5, 7],
    )
}

/// Nine points, all joined but for three pairs: 64 triangles, or 65 where the pairs are in a row.
pub fn all_but_three(in_a_row: bool) -> Drawing {
    let apart = if in_a_row { [(0, 1), (1, 2), (2, 3)] } else { [(0, 1), (1, 2), (3, 4)] };
    ordered(general(9), pairs(9, |a, b| !apart.contains(&(a, b))))
}

/// A pyramid whose base has so many corners.
pub fn based_on(corners: usize) -> Drawing {
    pyramid(&lift(&convex(corners), 0, 1, [0, 0]), &[[3, 4, 7]])
}

/// A cube whose top is a dent that pierces the bottom; its corners keep their numbers, and the dent's point is the last.
pub fn pierced() -> Drawing {
    let mut d = cube();
    d.vertices.push([5, 4, -1]);
    d.edges.extend((4..8).map(|corner| (corner, 8)));
    ordered(d.vertices, d.edges)
}

/// Nine points with 33 loops, all of them candidates, and nine solids.
pub fn nine_solids() -> Drawing {
    let places =
        [[4, 12, 0], [0, 0, 4], [4, 12, 12], [5, 8, 8], [4, 0, 12], [1, 14, 4], [8, 8, 6], [4, 8, 8], [4, 2, 4]];
    let apart = [(0, 2), (0, 3), (0, 4), (1, 6), (2, 7), (2, 8), (4, 5), (4, 7), (5, 8)];
    ordered(places.to_vec(), pairs(9, |a, b| !apart.contains(&(a, b))))
}

/// The tetrahedron with something changed.
fn spoiled(change: impl Fn(&mut Drawing)) -> Drawing {
    let mut d = tetrahedron();
    change(&mut d);
    d
}

/// Refused by 5 for vertices and for edges, by 8, by 9 twice, by 10 twice.
pub fn misshapen() -> Vec<Drawing> {
    vec![
        spoiled(|d| d.vertices.truncate(3)),
        spoiled(|d| d.vertices = vec![[7, 8, 9]; 33]),
        spoiled(|d| d.edges.truncate(5)),
        spoiled(|d| d.edges = vec![(0, 1); 65]),
        spoiled(|d| d.vertices[3][2] = 1_001),
        spoiled(|d| d.edges[5] = (2, 4)),
        spoiled(|d| d.edges[3] = (2, 1)),
        spoiled(|d| d.edges[4] = (1, 2)),
        spoiled(|d| d.edges.swap(1, 2)),
    ]
}

/// Refused by 11, 12, 13, 14, 15 and 16.
pub fn unruly() -> Vec<Drawing> {
    let mut apart = Maker::default();
    apart.drawing(&tetrahedron(), [0; 3]);
    apart.drawing(&tetrahedron(), [50, 60, 70]);
    vec![
        spoiled(|d| d.vertices[3] = d.vertices[2]),
        spoiled(|d| d.vertices.push([9, 9, 9])),
        complete(&[[0, 0, 0], [6, 0, 0], [0, 6, 0], [6, 6, 0]]),
        apart.done(),
        flat_129(),
        all_but_three(true),
    ]
}

/// Lists that aren't whole, and a coordinate that no sheet can hold.
pub fn lists_alone() -> Vec<(Vec<i64>, Vec<i64>)> {
    let (xyz, ends) = tetrahedron().lists();
    let low = xyz.iter().enumerate().map(|(k, c)| if k == 3 { -1_001 } else { *c }).collect();
    vec![([&xyz[..], &[0]].concat(), ends.clone()), (xyz, [&ends[..], &[3]].concat()), (low, ends)]
}

/// All of these as two lists.
pub fn refused_lists() -> Vec<(Vec<i64>, Vec<i64>)> {
    lists_alone().into_iter().chain([misshapen(), unruly()].concat().iter().map(Drawing::lists)).collect()
}

/// The cube's faces, outward: bottom, four walls, top.
const OUTWARD: [[usize; 4]; 6] = [[2, 3, 1, 0], [0, 1, 5, 4], [4, 6, 2, 0], [1, 3, 7, 5], [6, 7, 3, 2], [4, 5, 7, 6]];

/// The cube's face list with something changed.
pub fn faces_with(change: impl Fn(&mut Vec<Loop>)) -> Vec<u8> {
    let mut faces = OUTWARD.map(|face| face.to_vec()).to_vec();
    change(&mut faces);
    pack_faces(&faces)
}

/// Accepted; 20 for each part of the shape; 21 to 24, 26.
pub fn cube_lists() -> Vec<Vec<u8>> {
    let good = faces_with(|_| {});
    let changed = |change: &dyn Fn(&mut Vec<u8>)| {
        let mut list = good.clone();
        change(&mut list);
        list
    };
    vec![
        good.clone(),
        vec![],
        changed(&|list| list[0] ^= 0x30),
        changed(&|list| list.push(0)),
        changed(&|list| list[19] |= 1),
        faces_with(|faces| faces.truncate(3)),
        faces_with(|faces| *faces = vec![faces[0].clone(); 43]),
        faces_with(|faces| faces[5] = vec![4, 5]),
        faces_with(|faces| faces[5] = vec![4, 5, 7, 6, 4, 5, 7, 6, 4, 5, 7, 6, 4]),
        faces_with(|faces| faces[5][2] = 8),
        faces_with(|faces| faces[2] = vec![0, 1, 7, 6]),
        faces_with(|faces| faces.push(vec![5, 1, 0, 4])),
        faces_with(|faces| faces.truncate(5)),
        faces_with(|faces| faces[5].reverse()),
        faces_with(|faces| faces.iter_mut().for_each(|face| face.reverse())),
    ]
}

/// Sheets that 3 to 10 refuse, in this order.
pub fn refused_sheets() -> Vec<Vec<u8>> {
    let good = pack_sheet(&tetrahedron());
    let changed = |at: usize, by: u8| {
        let mut sheet = good.clone();
        sheet[at] ^= by;
        sheet
    };
    let short = vec![vec![], good[..2].to_vec(), changed(0, 0x30)];
    let long = vec![good[..26].to_vec(), [&good[..], &[0]].concat(), changed(26, 1)];
    let shapes = misshapen();
    let packed = |shapes: &[Drawing]| shapes.iter().map(pack_sheet).collect::<Vec<_>>();
    [short, packed(&shapes[..4]), long, packed(&shapes[4..])].concat()
}
