//! Fixed cases: each number of the table by each function that gives it, each reading, each text, and the document's limits.
use super::conversion::{converted, printed, Lent};
use super::json::{refused, Json, Object};
use super::lists::{checked_lists, checked_sheet};
use super::sheets::{fetched, stored};
use crate::convert::drawing_rules;
use crate::drawing::Drawing;
use crate::face_list::{pack_faces, send_solid};
use crate::fast;
use crate::gen::ambiguous::centred_cubes;
use crate::gen::known::*;
use crate::gen::limits::*;
use crate::numbers::*;
use crate::sheet::pack_sheet;
use crate::source::Source;

/// The cases as rows, without line ends.
pub fn limits() -> Vec<String> {
    let cases = [drawings(), lists(), sheets(), writes(), sends(), desks()];
    cases.iter().flatten().map(|case| case.json()).collect()
}

fn drawings() -> Vec<Object> {
    let lent = |(xyz, ends): (Vec<i64>, Vec<i64>), limit: u64, face_room: usize, solid_room: usize| Lent {
        xyz,
        ends,
        limit,
        face_room,
        solid_room,
    };
    let drawn = |most: Limits, d: Drawing, limit: u64| converted(most, &lent(d.lists(), limit, FACE_ROOM, SOLID_ROOM));
    let solids = |solids: usize| Limits { solids, ..DOCUMENTED };
    let entry = [(1_000_001, 831, 24), (1_000_001, 832, 23), (0, 831, 23), (1_000_001, 832, 24), (1_000_000, 840, 27)];
    let entry =
        entry.map(|(limit, faces, solids)| converted(DOCUMENTED, &lent(tetrahedron().lists(), limit, faces, solids)));
    // under limit 0, so that a definition without the refusal can be told: a proof can't walk 65 candidates
    let refused =
        refused_lists().into_iter().map(|lists| converted(DOCUMENTED, &lent(lists, 0, FACE_ROOM, SOLID_ROOM)));
    let at_limits = [
        drawn(DOCUMENTED, flat_128(), MOST_WORK),
        drawn(DOCUMENTED, all_but_three(false), 0),
        drawn(DOCUMENTED, based_on(12), MOST_WORK),
        drawn(DOCUMENTED, based_on(13), MOST_WORK),
        drawn(solids(3), centred_cubes(1), MOST_WORK),
        drawn(solids(2), centred_cubes(1), MOST_WORK),
        drawn(DOCUMENTED, octahedron(), 3),
        drawn(DOCUMENTED, octahedron(), 4),
        drawn(DOCUMENTED, cube_without(0), 0),
    ];
    let small = [octahedron(), triangle_with_centre()].into_iter().flat_map(|d| {
        let limits = just_under(&d).into_iter().chain([just_enough(&d)]);
        limits.map(move |most| drawn(most, d.clone(), MOST_WORK)).collect::<Vec<_>>()
    });
    entry.into_iter().chain(refused).chain(at_limits).chain(small).collect()
}

/// Limits that a drawing just passes.
fn just_enough(d: &Drawing) -> Limits {
    let passed = drawing_rules(Source::Sheet(&pack_sheet(d))).unwrap_or_else(|_| panic!("a drawing that passes"));
    Limits { loops: passed.loops.len(), candidates: passed.candidates.len(), ..DOCUMENTED }
}

/// One fewer of the loops, of the candidates, and of both.
fn just_under(d: &Drawing) -> [Limits; 3] {
    let enough = just_enough(d);
    [(1, 0), (0, 1), (1, 1)].map(|(loops, candidates)| Limits {
        loops: enough.loops - loops,
        candidates: enough.candidates - candidates,
        ..enough
    })
}

/// The rows of a drawing's report, and the first two words of its first solid.
fn report(d: &Drawing, candidates: usize) -> (Vec<u8>, [u64; 2]) {
    let (mut rows, mut words) = ([0; FACE_ROOM], [0; SOLID_ROOM]);
    fast::convert(Source::Sheet(&pack_sheet(d)), MOST_WORK, &mut rows, &mut words);
    (rows[..FACE_ROW * candidates].to_vec(), [words[0], words[1]])
}

fn lists() -> Vec<Object> {
    let (xyz, ends) = cube().lists();
    let shapes = cube_lists().into_iter().map(|list| checked_lists(&xyz, &ends, &list));
    let good = faces_with(|_| {});
    let refused = refused_lists().into_iter().map(|(xyz, ends)| checked_lists(&xyz, &ends, &good));
    // the dent's triangles in the place of the top: they pierce the bottom, which comes last
    let dent = [[4, 5, 8], [5, 7, 8], [7, 6, 8], [6, 4, 8]].map(|face| face.to_vec());
    let dent = faces_with(|faces| {
        faces.splice(5.., dent.clone());
        faces.rotate_left(1);
    });
    // two bodies that share a vertex: each outward
    let eight = [[2, 1, 0], [0, 1, 3], [3, 2, 0], [1, 2, 3], [0, 4, 5], [6, 4, 0], [0, 5, 6], [6, 5, 4]];
    let (rows, solid) = report(&based_on(12), 13);
    let mut twelve = [0; 512];
    let length = send_solid(&rows, &solid, &mut twelve).expect("13 faces");
    let more = [
        (pierced(), dent),
        (two_tetrahedra(), pack_faces(&eight.map(|face| face.to_vec()))),
        (based_on(12), twelve[..length].to_vec()),
    ];
    let more = more.map(|(d, list)| {
        let (xyz, ends) = d.lists();
        checked_lists(&xyz, &ends, &list)
    });
    let ruled = sheets_for_check().into_iter().map(|(sheet, list)| checked_sheet(&sheet, &list));
    shapes.chain(refused).chain(more).chain(ruled).collect()
}

/// The sheet's own checks; accepted; turned faces; an edge short.
fn sheets_for_check() -> Vec<(Vec<u8>, Vec<u8>)> {
    let good = faces_with(|_| {});
    let turned = faces_with(|faces| faces.iter_mut().for_each(|face| face.reverse()));
    let refused = refused_sheets().into_iter().map(|sheet| (sheet, good.clone()));
    let cubes = [(cube(), good.clone()), (cube(), turned), (cube_without(0), good.clone())];
    refused.chain(cubes.map(|(d, list)| (pack_sheet(&d), list))).collect()
}

fn sheets() -> Vec<Object> {
    refused_sheets().iter().chain([&pack_sheet(&cube())]).map(|sheet| fetched(sheet)).collect()
}

fn writes() -> Vec<Object> {
    let shapes: Vec<_> = lists_alone().into_iter().chain(misshapen().iter().map(Drawing::lists)).collect();
    let (xyz, ends) = tetrahedron().lists();
    let rooms = [26, 27, 30].map(|room| stored(&xyz, &ends, room));
    // the writer gives 1 last
    shapes.iter().map(|(xyz, ends)| stored(xyz, ends, 26)).chain(rooms).collect()
}

/// A drawing's rows and a solid's words, and what is written of it in so much room.
fn sent(d: &Drawing, rows: &[u8], solid: [u64; 2], room: usize) -> Object {
    let mut bytes = vec![0; room];
    let answer = match send_solid(rows, &solid, &mut bytes) {
        Ok(length) => Object::that_is("written").put("length", &length).put("bytes", &bytes[..length]),
        Err(refusal) => refused(refusal),
    };
    let row = Object::of_kind("sent").put("vertices", &d.vertices.len()).put("edges", &d.edges.len());
    row.put("rows", rows).put("solid", &solid).put("room", &room).put("answer", &answer)
}

fn sends() -> Vec<Object> {
    let (small, large) = (tetrahedron(), based_on(12));
    let (rows, solid) = report(&small, 4);
    let row_with = |at: usize, byte: u8| {
        let mut rows = rows.clone();
        rows[at] = byte;
        rows
    };
    let (many, all) = report(&large, 13);
    vec![
        sent(&small, &rows, solid, 20),
        sent(&small, &rows, solid, 11),
        sent(&small, &rows, solid, 10),
        sent(&small, &rows, [7, solid[1]], 10),
        sent(&small, &rows[..51], solid, 20),
        sent(&small, &row_with(0, 2), solid, 20),
        sent(&small, &row_with(0, 13), solid, 20),
        sent(&small, &row_with(1, 32), solid, 20),
        sent(&large, &many, all, 50),
    ]
}

fn desks() -> Vec<Object> {
    let bodies = [tetrahedron(), centred_cubes(1), cube_without(0), nine_solids()];
    let drawings = unruly().into_iter().take(4).chain(bodies);
    let sheets = refused_sheets().into_iter().chain(drawings.map(|d| pack_sheet(&d)));
    sheets.map(|sheet| printed(&sheet)).collect()
}
