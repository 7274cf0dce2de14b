//! The known drawings of document 01, with its numbers.
use crate::common::*;
use nibgravel_reference::clash::clash;
use nibgravel_reference::convert::{convert, Answer};
use nibgravel_reference::desk::{desk, desk_with};
use nibgravel_reference::drawing::{Drawing, Loop};
use nibgravel_reference::fast;
use nibgravel_reference::gen::ambiguous::{centred_frusta, mirrored_octahedra, no_volume};
use nibgravel_reference::gen::bodies::{prism, revolved};
use nibgravel_reference::gen::flat::convex;
use nibgravel_reference::gen::known::*;
use nibgravel_reference::numbers::*;
use nibgravel_reference::polygon::{six_volumes, Point};
use nibgravel_reference::reading::{reading, Reading};
use nibgravel_reference::sheet::{pack_sheet, sheet_length};
use nibgravel_reference::solids::{Fails, Table};
use nibgravel_reference::source::Source;
use nibgravel_reference::vector::sub;
use nibgravel_reference::walk::walk;

fn failed(d: &Drawing) -> Vec<Fails> {
    let passed = passed(d);
    walk(&Table::new(&passed.drawing, &passed.candidates), MOST_WORK, MOST_SOLIDS).failed
}

#[test]
fn tetrahedron_has_216() {
    let d = tetrahedron();
    assert_eq!(pack_sheet(&d).len(), 27);
    let outcome = converted(&d, 0);
    assert_eq!(outcome.answer, report(4, 4, 0, 1));
    assert_eq!((outcome.solids[0], outcome.solids[2]), (15, 216));
    assert_eq!(outcome.faces[..13], [3, 0, 1, 2, 255, 255, 255, 255, 255, 255, 255, 255, 255]);
    assert_eq!(reading(&outcome.answer, &outcome.solids), Reading::Volume(0.000036));
    assert_eq!(verdict(&d, &solids_of(&d)[0]), (0, 0));
}

#[test]
fn cube_has_6000_and_turned_gets_26() {
    let d = cube();
    let outcome = converted(&d, MOST_WORK);
    assert_eq!(outcome.answer, report(6, 6, 0, 1));
    assert_eq!(outcome.solids[2], 6_000);
    assert_eq!(reading(&outcome.answer, &outcome.solids), Reading::Volume(0.001));
    let good = solids_of(&d).remove(0);
    assert_eq!(verdict(&d, &good), (0, 0));
    assert_eq!(verdict(&d, &good.iter().map(turned).collect::<Vec<Loop>>()), (INWARD, 0));
    for edge in 0..12 {
        let outcome = converted(&cube_without(edge), MOST_WORK);
        assert_eq!(outcome.answer, ended(NO_SOLID, 4, 4, 0));
        assert_eq!(reading(&outcome.answer, &outcome.solids), Reading::NotAssessed(NO_SOLID));
    }
}

#[test]
fn octahedron_has_three_selections_and_one_solid() {
    let d = octahedron();
    let outcome = converted(&d, MOST_WORK);
    assert_eq!(outcome.answer, report(11, 11, 4, 1));
    assert_eq!(outcome.solids[2], 8_000);
    assert_eq!(failed(&d), [Fails::Directions, Fails::Directions]);
    assert_eq!(converted(&d, 4).answer, report(11, 11, 4, 1));
    for limit in 0..4 {
        assert_eq!(converted(&d, limit).answer, ended(TOO_LONG, 11, 11, limit as u32));
    }
    assert_eq!(verdict(&d, &solids_of(&d)[0]), (0, 0));
}

#[test]
fn the_desk_prints_exactly() {
    let sheet = pack_sheet(&octahedron());
    let text = "wire 6 12\nloops 11 candidates 11\nwork 4\nsolids 1\n\
                solid 1 sixvolumes 8000 faces +1 -2 -3 +4 -6 +7 +8 -9\n";
    assert_eq!(desk(&sheet), text);
    assert_eq!(desk_with(fast::convert, &sheet), text);
    let wire = |d: &Drawing, end: &str| assert_eq!(desk(&pack_sheet(d)), end);
    wire(&cube_without(0), "wire 8 11\nloops 4 candidates 4\nwork 0\nno solid\n");
    wire(&mirrored_octahedra(true), "wire 11 33\nloops 93 candidates 39\nwork 39\nmany\n");
    wire(
        &tetrahedron(),
        "wire 4 6\nloops 4 candidates 4\nwork 0\nsolids 1\nsolid 1 sixvolumes 216 faces -0 +1 -2 +3\n",
    );
    assert_eq!(desk(&[0x20, 0, 0]), "refused 4 0\n");
    // No drawing is known that takes 1,000,000 assumptions.
    let short = |source: Source, _: u64, faces: &mut [u8], solids: &mut [u64]| convert(source, 3, faces, solids);
    assert_eq!(desk_with(short, &sheet), "wire 6 12\nloops 11 candidates 11\nwork 3\ntoo long\n");
}

#[test]
fn nested_cubes_have_three_solids() {
    let d = nested_cubes();
    assert_eq!((d.vertices.len(), d.edges.len()), (16, 32));
    let outcome = converted(&d, MOST_WORK);
    assert!(matches!(outcome.answer, Answer::Report { candidates: 24, work: 4, solids: 3, .. }));
    assert_eq!([2, 5, 8].map(|k| outcome.solids[k]), [224_000; 3]);
    assert_eq!(reading(&outcome.answer, &outcome.solids), Reading::NotAssessed(SEVERAL));
    assert!(solids_of(&d).iter().all(|faces| verdict(&d, faces) == (0, 0)));
}

#[test]
fn triangle_with_centre_has_no_solid() {
    assert_eq!(converted(&triangle_with_centre(), MOST_WORK).answer, ended(NO_SOLID, 7, 3, 0));
}

#[test]
fn two_tetrahedra_at_a_point_have_no_solid() {
    let d = two_tetrahedra();
    assert_eq!(converted(&d, MOST_WORK).answer, ended(NO_SOLID, 8, 8, 0));
    assert_eq!(failed(&d), [Fails::Joined]);
    let mut faces: Vec<Loop> = vec![];
    for body in [[0, 1, 2, 3], [0, 4, 5, 6]] {
        for (k, opposite) in body.iter().enumerate() {
            let face: Loop = [&body[..k], &body[k + 1..]].concat();
            // Seen from the opposite corner, an outward face has its volume before it.
            let from: Vec<Point> = d.points(&face).iter().map(|p| sub(*p, d.point(*opposite))).collect();
            faces.push(if six_volumes(&from) > 0 { face } else { turned(&face) });
        }
    }
    assert_eq!(verdict(&d, &faces), (PIECES, 4));
    faces.swap(1, 7);
    assert_eq!(verdict(&d, &faces), (PIECES, 1));
}

#[test]
fn pairs_clash_as_listed() {
    let f = [[0, 0, 0], [6, 0, 0], [0, 6, 0]];
    let square = [[0, 0, 0], [6, 0, 0], [6, 6, 0], [0, 6, 0]];
    let either = |f: &[Point], g: &[Point]| {
        assert_eq!(clash(f, g), clash(g, f));
        clash(f, g)
    };
    assert_eq!(either(&f, &[[1, 1, -3], [1, 1, 3], [9, 9, 0]]), Some('A'));
    assert_eq!(either(&f, &[[4, 4, -3], [4, 4, 3], [9, 9, 0]]), None);
    assert_eq!(either(&f, &[[1, 1, 0], [9, 9, 3], [1, 9, 5]]), Some('B'));
    assert_eq!(either(&square, &[[0, 0, 0], [3, 3, 5], [6, 6, 0], [3, 3, -5]]), Some('C'));
}

#[test]
fn limits_are_where_they_are_said_to_be() {
    assert_eq!((sheet_length(4, 6), sheet_length(32, 64)), (27, 215));
    // A prism over 16 corners has 32 vertices; its floors are no loops.
    let mut d = prism(&convex(16), 5, [0, 0]);
    assert_eq!(refusal(converted(&d, 0).answer).0, NO_SOLID);
    d.vertices.push([900; 3]);
    assert_eq!(refusal(converted(&d, 0).answer), (BAD_COUNT, 0));
    let mut d = box_of([-1_000; 3], [1_000; 3]);
    let outcome = converted(&d, 0);
    assert_eq!((outcome.answer, outcome.solids[2]), (report(6, 6, 0, 1), 48_000_000_000));
    d.vertices[3][1] = 1_001;
    assert_eq!(refusal(converted(&d, 0).answer), (BAD_COORDINATE, 10));
    // Walls of twelve corners are loops, walls of thirteen are not.
    assert_eq!(refusal(converted(&prism(&convex(12), 5, [0, 0]), 0).answer).0, 0);
    assert_eq!(refusal(converted(&prism(&convex(13), 5, [0, 0]), 0).answer).0, NO_SOLID);
}

#[test]
fn eight_solids_are_reported_and_nine_are_many() {
    let d = centred_frusta(&[3, 5, 4, 6]);
    let outcome = converted(&d, MOST_WORK);
    let Answer::Report { solids: 8, work, .. } = outcome.answer else { panic!("{:?}", outcome.answer) };
    assert_eq!(reading(&outcome.answer, &outcome.solids), Reading::NotAssessed(SEVERAL));
    assert!(solids_of(&d).iter().all(|faces| verdict(&d, faces) == (0, 0)));
    assert_eq!(refusal(converted(&d, work as u64 - 1).answer), (TOO_LONG, work - 1));
    // The ninth ends the walk at once, so a limit of just its work still gives Many.
    let d = mirrored_octahedra(true);
    for limit in [MOST_WORK, 39] {
        assert_eq!(converted(&d, limit).answer, ended(MANY, 93, 39, 39));
    }
    assert_eq!(converted(&d, 38).answer, ended(TOO_LONG, 93, 39, 38));
}

#[test]
fn document_000_figure_6() {
    let d = revolved(6, &[(2, 0), (2, 3)], Some((-2, 5)));
    assert_eq!((d.vertices.len(), d.edges.len()), (14, 30));
    assert!(matches!(converted(&d, MOST_WORK).answer, Answer::Report { loops: 23, candidates: 23, solids: 1, .. }));
    assert_eq!(failed(&d), [Fails::Clash, Fails::Clash]);
}

#[test]
fn a_selection_without_volume_is_no_solid() {
    assert!(failed(&no_volume()).contains(&Fails::Volume));
}
