//! The face-list check: each of 20 to 27, and that exactly the solids are accepted.
use crate::common::*;
use nibgravel_reference::drawing::{Drawing, Loop};
use nibgravel_reference::face_list::{pack_faces, read_faces, send_solid};
use nibgravel_reference::gen::ambiguous::no_volume;
use nibgravel_reference::gen::known::*;
use nibgravel_reference::gen::lists::any_list;
use nibgravel_reference::gen::rng::Rng;
use nibgravel_reference::gen::sheets::{changed, counted_drawing};
use nibgravel_reference::moves::from_lowest;
use nibgravel_reference::numbers::*;
use nibgravel_reference::sheet::pack_sheet;
use nibgravel_reference::source::Source;
use std::collections::BTreeMap;

fn cube_faces_with(change: impl FnOnce(&mut Vec<Loop>)) -> (u32, u32) {
    let mut faces = solids_of(&cube()).remove(0);
    change(&mut faces);
    verdict(&cube(), &faces)
}

#[test]
fn a_list_of_bad_shape_gets_20() {
    let sheet = pack_sheet(&cube());
    let list = pack_faces(&solids_of(&cube())[0]);
    let refused = |list: &[u8]| checked(Source::Sheet(&sheet), list);
    assert_eq!(refused(&list), (0, 0));
    assert_eq!(refused(&[]), (SHELL_SHAPE, 0));
    assert_eq!(refused(&list[..list.len() - 1]), (SHELL_SHAPE, 0));
    assert_eq!(refused(&[&list[..], &[0]].concat()), (SHELL_SHAPE, 0));
    assert_eq!(refused(&[&[0x20 | list[0] & 15], &list[1..]].concat()), (SHELL_SHAPE, 0));
    // 154 bits: six bits of fill.
    for bit in 0..6 {
        let mut spoiled = list.clone();
        spoiled[19] |= 1 << bit;
        assert_eq!(refused(&spoiled), (SHELL_SHAPE, 0));
    }
    assert_eq!(cube_faces_with(|faces| faces.truncate(3)), (SHELL_SHAPE, 0));
    assert_eq!(cube_faces_with(|faces| *faces = vec![faces[0].clone(); 43]), (SHELL_SHAPE, 0));
    assert_eq!(cube_faces_with(|faces| faces[5].truncate(2)), (SHELL_SHAPE, 0));
    assert_eq!(cube_faces_with(|faces| faces[5] = vec![0; 13]), (SHELL_SHAPE, 0));
    // No vertex of this drawing, though the field could hold it.
    assert_eq!(cube_faces_with(|faces| faces[5][0] = 8), (SHELL_SHAPE, 0));
}

#[test]
fn a_list_is_refused_by_21_to_26() {
    assert_eq!(cube_faces_with(|faces| faces[4].truncate(3)), (NOT_CANDIDATE, 4));
    assert_eq!(cube_faces_with(|faces| [2, 4].iter().for_each(|k| faces[*k].swap(0, 1))), (NOT_CANDIDATE, 2));
    // A corner twice, in a list that also has a face twice before it.
    assert_eq!(cube_faces_with(|faces| (faces[1], faces[4][1]) = (faces[0].clone(), faces[4][0])), (NOT_CANDIDATE, 4));
    assert_eq!(
        cube_faces_with(|faces| faces[3] = [&turned(&faces[1])[2..], &turned(&faces[1])[..2]].concat()),
        (FACE_TWICE, 3)
    );
    assert_eq!(cube_faces_with(|faces| faces.push(faces[1].clone())), (FACE_TWICE, 6));
    assert_eq!(cube_faces_with(|faces| faces.retain(|face| !face.contains(&0) || face.contains(&7))), (SHELL_SHAPE, 0));
    assert_eq!(cube_faces_with(|faces| faces.truncate(5)), (EDGE_COUNT, 8));
    assert_eq!(cube_faces_with(|faces| faces[5].reverse()), (DIRECTION, 8));
    assert_eq!(cube_faces_with(|faces| faces.iter_mut().for_each(|face| face.reverse())), (INWARD, 0));
}

#[test]
fn no_volume_is_inward_whichever_way_it_is_turned() {
    let sheet = pack_sheet(&no_volume());
    let mut met = BTreeMap::new();
    for case in 0..3_000 {
        let list = any_list(&mut Rng::of_case(3, case), Source::Sheet(&sheet));
        if let (INWARD, _) = checked(Source::Sheet(&sheet), &list) {
            let faces: Vec<Loop> = read_faces(&list, 11).unwrap().iter().map(turned).collect();
            *met.entry(verdict(&no_volume(), &faces)).or_insert(0) += 1;
        }
    }
    assert!(met.contains_key(&(INWARD, 0)), "{met:?}");
}

/// Is the list one of the drawing's solids, each face from any start in its direction?
fn is_solid(d: &Drawing, list: &[u8]) -> bool {
    let sorted = |faces: &[Loop]| {
        let mut faces: Vec<Loop> = faces.iter().map(|face| from_lowest(face)).collect();
        faces.sort();
        faces
    };
    let Some(faces) = read_faces(list, d.vertices.len()) else { return false };
    solids_of(d).iter().any(|solid| sorted(solid) == sorted(&faces))
}

#[test]
fn exactly_the_solids_are_accepted() {
    let mut r = Rng::new(41);
    let mut met: BTreeMap<u32, u32> = BTreeMap::new();
    while met.values().sum::<u32>() < 2_500 {
        let d = counted_drawing(&mut r, 16);
        let d = changed(&mut r, d);
        let sheet = pack_sheet(&d);
        let (number, work) = refusal(both(Source::Sheet(&sheet), 500, (832, 24)).answer);
        if !(number == 0 || number == NO_SOLID) || work > 500 {
            continue;
        }
        let list = any_list(&mut r, Source::Sheet(&sheet));
        let (number, _) = checked(Source::Sheet(&sheet), &list);
        assert_eq!(number == 0, is_solid(&d, &list));
        *met.entry(number).or_default() += 1;
    }
    let all: Vec<u32> = [0].into_iter().chain(SHELL_SHAPE..=CLASH).collect();
    assert_eq!(met.keys().copied().collect::<Vec<u32>>(), all, "{met:?}");
}

#[test]
fn a_solid_that_is_sent_is_accepted() {
    for d in [tetrahedron(), cube(), octahedron(), nested_cubes()] {
        let outcome = converted(&d, MOST_WORK);
        for (words, faces) in outcome.solids.chunks(3).zip(solids_of(&d)) {
            let mut room = vec![0x5a; 100];
            let length = send_solid(&outcome.faces, words, &mut room).expect("a solid");
            assert_eq!(verdict(&d, &faces), (0, 0));
            assert_eq!(checked(Source::Sheet(&pack_sheet(&d)), &room[..length]), (0, 0));
            assert!(room[length..].iter().all(|byte| *byte == 0x5a));
            let short = send_solid(&outcome.faces, words, &mut room[..length - 1]);
            assert_eq!(short, refuse(NO_ROOM, 0));
        }
    }
}
