//! The errors that look right of document 01, each with a case that tells it.
use crate::common::*;
use nibgravel_reference::clash::clash;
use nibgravel_reference::cover::covers;
use nibgravel_reference::drawing::Loop;
use nibgravel_reference::gen::bodies::{dented, revolved};
use nibgravel_reference::gen::known::*;
use nibgravel_reference::numbers::*;
use nibgravel_reference::polygon::Point;
use nibgravel_reference::reading::{reading, Reading};
use nibgravel_reference::solids::Table;

#[test]
fn cover_is_not_by_vertices() {
    let d = notched_pentagon();
    let passed = passed(&d);
    let (pentagon, triangle, square) = (vec![0, 1, 2, 3, 4], vec![2, 3, 4], vec![0, 1, 2, 4]);
    assert!([&pentagon, &triangle, &square].iter().all(|l| passed.loops.contains(l)));
    assert!(!covers(&d, &pentagon, &triangle) && !covers(&d, &pentagon, &square));
    assert!(covers(&d, &square, &triangle) && covers(&d, &square, &pentagon));
    assert!(passed.candidates.contains(&pentagon) && passed.candidates.contains(&triangle));
    assert!(!passed.candidates.contains(&square));
}

#[test]
fn two_faces_on_each_edge_are_not_enough() {
    let d = octahedron();
    let passed = passed(&d);
    let table = Table::new(&d, &passed.candidates);
    let set = |bits: u32| (0..11).filter(|c| bits >> c & 1 == 1).collect::<Vec<usize>>();
    assert_eq!((0..1 << 11).filter(|bits| table.two_on_every_edge(&set(*bits))).count(), 3);
    assert_eq!(refusal(converted(&d, MOST_WORK).answer).0, 0);
    assert_eq!(solids_of(&d).len(), 1);
}

#[test]
fn the_piercing_point_is_not_rounded() {
    let f = [[0, 0, 0], [3, 0, 0], [0, 3, 0]];
    let at = |low: i128, high: i128| clash(&f, &[[1, 1, low], [2, 2, high], [9, 9, high]]);
    // At 1 + 1/3 inside; at 1 + 2/3 outside, though 1 is inside; at 1 + 1/2 on the border.
    assert_eq!(clash(&f, &[[1, 1, -1], [2, 2, 2], [9, 9, -1]]), Some('A'));
    assert_eq!(at(-2, 1), None);
    assert_eq!(at(-1, 1), None);
}

#[test]
fn a_corner_above_180_degrees_is_not_its_smaller_angle() {
    let l: [Point; 6] = [[0, 0, 0], [4, 0, 0], [4, 2, 0], [2, 2, 0], [2, 4, 0], [0, 4, 0]];
    let upright = |a: Point, middle: Point, b: Point| {
        let (mut up, mut down) = (middle, middle);
        up[2] = 5;
        down[2] = -5;
        clash(&l, &[a, up, b, down])
    };
    // Inside the 270 degrees at (2, 2); into the notch; across it.
    assert_eq!(upright([0, 0, 0], [1, 1, 0], [2, 2, 0]), Some('C'));
    assert_eq!(upright([2, 2, 0], [3, 3, 0], [4, 4, 0]), None);
    assert_eq!(upright([4, 2, 0], [3, 3, 0], [2, 4, 0]), None);
}

#[test]
fn a_corner_of_180_degrees_is_a_half_plane() {
    let f: [Point; 6] = [[0, 0, 0], [3, 0, 0], [6, 0, 0], [6, 6, 0], [3, 6, 0], [0, 6, 0]];
    let across = [[3, 0, 0], [3, 3, 5], [3, 6, 0], [3, 3, -5]];
    assert_eq!((clash(&f, &across), clash(&across, &f)), (Some('C'), Some('C')));
    // Along the straight side is not strictly inside.
    assert_eq!(clash(&f, &[[0, 0, 0], [3, 0, 0], [3, 0, 5], [0, 0, 5]]), None);
}

#[test]
fn poles_above_and_at_180_degrees_leave_one_solid() {
    for (low, high) in [(1, 4), (0, 5), (-2, 7), (1, 7)] {
        let d = revolved(6, &[(2, 0), (2, 5)], Some((low, high)));
        assert_eq!(refusal(converted(&d, MOST_WORK).answer).0, 0);
        assert_eq!(solids_of(&d).len(), 1);
    }
}

#[test]
fn equal_volumes_are_several_solids() {
    let outcome = converted(&nested_cubes(), MOST_WORK);
    assert_eq!(outcome.solids[2], outcome.solids[5]);
    assert_eq!(reading(&outcome.answer, &outcome.solids), Reading::NotAssessed(SEVERAL));
}

#[test]
fn a_mere_touch_clashes() {
    let above = dented([5, 4, 1]);
    assert_eq!(refusal(converted(&above, 0).answer).0, 0);
    for (z, letter) in [(0, 'B'), (-1, 'A')] {
        let d = dented([5, 4, z]);
        assert_eq!(refusal(converted(&d, 0).answer), (NO_SOLID, 0));
        // The faces of the good body have the same corner numbers; the bottom clashes with the dent.
        let mut faces = solids_of(&above).remove(0);
        let is_bottom = |face: &Loop| face.iter().all(|v| above.vertices[*v][2] == 0);
        let in_dent = |face: &Loop| face.iter().any(|v| above.vertices[*v] == [5, 4, 1]);
        let bottom = faces.remove(faces.iter().position(is_bottom).unwrap());
        let dent = faces.iter().position(in_dent).unwrap();
        assert_eq!(clash(&d.points(&bottom), &d.points(&faces[dent])), Some(letter));
        faces.push(bottom.clone());
        assert_eq!(verdict(&d, &faces), (CLASH, dent as u32));
        faces.pop();
        faces.insert(0, bottom);
        assert_eq!(verdict(&d, &faces), (CLASH, 0));
    }
}
