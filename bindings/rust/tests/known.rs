//! The known drawings of document 01, and its limits.
mod common;

use common::*;
use nibgravel::{write_faces, Drawing, Error, Number, Reading, Search, Verdict, MOST_WORK};

/// What a report says: loops, candidates, work, and six volumes of each solid.
fn counted(drawing: &Drawing, limit: u64) -> Result<(usize, usize, u64, Vec<u64>), Error> {
    let report = drawing.convert(limit)?;
    let Search { loops, candidates, work } = report.search();
    Ok((loops, candidates, work, report.solids().map(|solid| solid.six_volumes()).collect()))
}

fn refused(verdict: Verdict) -> (Number, usize) {
    match verdict {
        Verdict::Refused(error) => (error.number(), error.place()),
        Verdict::Accepted => panic!("accepted"),
    }
}

#[test]
fn tetrahedron_is_assessed() {
    assert_eq!(counted(&tetrahedron(), MOST_WORK), Ok((4, 4, 0, vec![216])));
    assert_eq!(tetrahedron().assess(0), Reading::Volume(216.0 / 6_000_000.0));
}

#[test]
fn cube_is_assessed() {
    assert_eq!(counted(&cube(), MOST_WORK), Ok((6, 6, 0, vec![6_000])));
    assert_eq!(cube().assess(MOST_WORK), Reading::Volume(0.001));
}

#[test]
fn cube_with_a_diagonal_has_a_loop_that_is_no_candidate() {
    assert_eq!(counted(&cube_with_diagonal(), MOST_WORK), Ok((8, 7, 0, vec![6_000])));
}

#[test]
fn cube_without_an_edge_is_no_solid() {
    for edge in 0..12 {
        let error = cube_without(edge).convert(MOST_WORK).unwrap_err();
        assert_eq!(error.to_string(), "17 NoSolid, work 0");
        assert_eq!(error.search(), Some(Search { loops: 4, candidates: 4, work: 0 }));
        assert_eq!(cube_without(edge).assess(MOST_WORK), Reading::NotAssessed(17));
    }
}

#[test]
fn octahedron_takes_work_4() {
    assert_eq!(counted(&octahedron(), 4), Ok((11, 11, 4, vec![8_000])));
    let error = octahedron().convert(3).unwrap_err();
    assert_eq!((error.number(), error.place()), (Number::TooLong, 3));
    assert_eq!(error.search(), Some(Search { loops: 11, candidates: 11, work: 3 }));
    assert_eq!(octahedron().assess(3), Reading::NotAssessed(19));
    assert_eq!(octahedron().convert(MOST_WORK + 1).unwrap_err().to_string(), "2 BadLimit");
}

#[test]
fn octahedron_is_told_as_on_the_desk() {
    let report = octahedron().convert(MOST_WORK).unwrap();
    let solid = report.solids().next().unwrap();
    let faces: Vec<String> = solid.faces().map(|face| face.to_string()).collect();
    assert_eq!(faces.join(" "), "+1 -2 -3 +4 -6 +7 +8 -9");
    assert_eq!(
        faces_of(&octahedron()),
        [[0, 2, 4], [0, 5, 2], [0, 4, 3], [0, 3, 5], [1, 4, 2], [1, 2, 5], [1, 3, 4], [1, 5, 3]]
    );
}

#[test]
fn nested_cubes_are_ambiguous() {
    let drawing = nested_cubes();
    assert_eq!((drawing.xyz.len(), drawing.ends.len()), (3 * 16, 2 * 32));
    assert_eq!(counted(&drawing, MOST_WORK), Ok((24, 24, 4, vec![224_000; 3])));
    assert_eq!(drawing.assess(MOST_WORK), Reading::NotAssessed(30));
    assert_eq!(drawing.assess(MOST_WORK).number(), Some(Number::Ambiguous));
}

#[test]
fn triangle_with_its_centre_is_no_solid() {
    let error = triangle_with_centre().convert(MOST_WORK).unwrap_err();
    let search = error.search().unwrap();
    assert_eq!((error.number(), search.loops, search.candidates), (Number::NoSolid, 7, 3));
}

#[test]
fn two_tetrahedra_are_pieces() {
    assert_eq!(two_tetrahedra().convert(MOST_WORK).unwrap_err().number(), Number::NoSolid);
    // vertices 1 to 3 of the image are 4 to 6 of the two
    let mut faces = faces_of(&tetrahedron());
    faces.extend(faces_of(&image()).iter().map(|f| f.iter().map(|v| if *v > 0 { v + 3 } else { 0 }).collect()));
    let list = face_list(&two_tetrahedra(), &faces).unwrap();
    assert_eq!(refused(two_tetrahedra().check(&list)), (Number::Pieces, 4));
}

#[test]
fn turned_faces_are_inward() {
    let report = cube().convert(MOST_WORK).unwrap();
    let solid = report.solids().next().unwrap();
    let inward = [solid.taken(), solid.taken() & !solid.turned()];
    let list = write_faces(report.rows(), &inward, 8, 12).unwrap();
    assert_eq!(refused(cube().check(&list)), (Number::Inward, 0));
    let sheet = cube().to_sheet().unwrap();
    assert_eq!(refused(nibgravel::check_sheet(&sheet, &list)), (Number::Inward, 0));
}

#[test]
fn every_solid_that_is_sent_is_accepted() {
    for drawing in [tetrahedron(), cube(), octahedron(), nested_cubes()] {
        let sheet = drawing.to_sheet().unwrap();
        for solid in drawing.convert(MOST_WORK).unwrap().solids() {
            let list = solid.to_face_list().unwrap();
            assert_eq!(drawing.check(&list), Verdict::Accepted);
            assert_eq!(nibgravel::check_sheet(&sheet, &list), Verdict::Accepted);
            // by hand, from the corners as they are run
            let faces: Vec<Vec<u8>> = solid.faces().map(|face| face.corners().collect()).collect();
            assert_eq!(face_list(&drawing, &faces), Ok(list));
        }
    }
}

#[test]
fn sheets_read_back() {
    for drawing in [tetrahedron(), cube(), octahedron(), nested_cubes(), two_tetrahedra(), chain(32)] {
        let sheet = drawing.to_sheet().unwrap();
        assert_eq!(Drawing::read(&sheet), Ok(drawing.clone()));
        assert_eq!(nibgravel::convert_sheet(&sheet, 4), drawing.convert(4));
        assert_eq!(nibgravel::assess_sheet(&sheet, 4), drawing.assess(4));
    }
    assert_eq!(octahedron().to_sheet().unwrap(), include_bytes!("../../../samples/octahedron.sheet"));
}

#[test]
fn the_longest_sheet_and_list() {
    let mut drawing = chain(32);
    drawing.ends = (0..64).flat_map(|edge| [edge / 16, edge % 16 + 8]).collect();
    let sheet = drawing.to_sheet().unwrap();
    assert_eq!((sheet.len(), Drawing::read(&sheet)), (215, Ok(drawing.clone())));
    let faces = vec![(0..12).collect(); 42];
    assert_eq!(face_list(&drawing, &faces).unwrap().len(), 338);
}

#[test]
fn limits_of_a_sheet() {
    assert!(chain(32).to_sheet().is_ok());
    assert_eq!(chain(33).to_sheet().unwrap_err().to_string(), "5 BadCount, vertices");
    let mut cube = cube();
    cube.xyz[5] = 1_000;
    assert!(cube.to_sheet().is_ok());
    cube.xyz[5] = 1_001;
    assert_eq!(cube.to_sheet().unwrap_err().to_string(), "8 BadCoordinate, coordinate 5");
}
