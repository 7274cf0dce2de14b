//! Each refusal of conversion and of the sheet writer, with its place, in the order of the table.
use crate::common::*;
use nibgravel_reference::drawing::Drawing;
use nibgravel_reference::gen::ambiguous::general;
use nibgravel_reference::gen::bodies::plate;
use nibgravel_reference::gen::known::*;
use nibgravel_reference::gen::maker::complete;
use nibgravel_reference::numbers::*;
use nibgravel_reference::reading::{reading, Reading};
use nibgravel_reference::sheet::{pack_sheet, read_sheet, write_sheet};
use nibgravel_reference::source::Source;

fn sheet_refusal(sheet: &[u8], limit: u64, rooms: (usize, usize)) -> (u32, u32) {
    let outcome = both(Source::Sheet(sheet), limit, rooms);
    let (number, place) = refusal(outcome.answer);
    if number != 0 {
        assert_eq!(reading(&outcome.answer, &outcome.solids), Reading::NotAssessed(number));
    }
    (number, place)
}

#[test]
fn room_and_limit_come_before_the_sheet() {
    assert_eq!(sheet_refusal(&[], 2_000_000, (831, 23)), (NO_ROOM, 0));
    assert_eq!(sheet_refusal(&[], 2_000_000, (831, 24)), (NO_ROOM, 0));
    assert_eq!(sheet_refusal(&[], 2_000_000, (832, 23)), (NO_ROOM, 1));
    assert_eq!(sheet_refusal(&[], 1_000_001, (832, 24)), (BAD_LIMIT, 0));
    assert_eq!(sheet_refusal(&pack_sheet(&cube()), u64::MAX, (832, 24)), (BAD_LIMIT, 0));
    assert_eq!(sheet_refusal(&pack_sheet(&cube()), 1_000_000, (832, 24)), (0, 0));
}

#[test]
fn a_sheet_is_refused_by_3_to_7() {
    let refused = |sheet: &[u8]| sheet_refusal(sheet, MOST_WORK, (832, 24));
    let sheet = pack_sheet(&cube());
    assert_eq!(refused(&[]), (SHEET_SHORT, 0));
    assert_eq!(refused(&[0x20, 0]), (SHEET_SHORT, 0));
    assert_eq!(refused(&[0x20, 0, 0]), (SHEET_EDITION, 0));
    assert_eq!(refused(&[0x10, 0, 0]), (BAD_COUNT, 0));
    // 40 vertices in three bytes, then 4 vertices and no edges.
    assert_eq!(refused(&[0x1a, 0, 0]), (BAD_COUNT, 0));
    assert_eq!(refused(&[0x11, 0, 0]), (BAD_COUNT, 1));
    assert_eq!(refused(&sheet[..sheet.len() - 1]), (SHEET_LENGTH, 0));
    assert_eq!(refused(&[&sheet[..], &[0]].concat()), (SHEET_LENGTH, 0));
    // 401 bits: seven bits of fill, each of them looked at.
    for bit in 0..7 {
        let mut spoiled = sheet.clone();
        spoiled[50] |= 1 << bit;
        assert_eq!(refused(&spoiled), (SHEET_PAD, 0));
    }
}

fn with(base: &Drawing, change: impl FnOnce(&mut Drawing)) -> (u32, u32) {
    let mut d = base.clone();
    change(&mut d);
    refusal(converted(&d, 0).answer)
}

#[test]
fn a_drawing_is_refused_by_8_to_12_at_the_lowest_place() {
    let cube = cube();
    assert_eq!(with(&cube, |d| (d.vertices[2][1], d.vertices[5][0]) = (1_001, 1_047)), (BAD_COORDINATE, 7));
    assert_eq!(with(&cube, |d| (d.edges[4], d.edges[7]) = ((5, 2), (3, 3))), (BAD_EDGE, 4));
    assert_eq!(with(&cube, |d| d.edges[3].1 = 8), (BAD_EDGE, 3));
    assert_eq!(with(&cube, |d| d.edges[6] = d.edges[5]), (EDGE_ORDER, 6));
    assert_eq!(with(&cube, |d| d.edges.swap(2, 9)), (EDGE_ORDER, 3));
    // 8 over all coordinates, then 9 over all edges, then 10.
    assert_eq!(with(&cube, |d| (d.vertices[7][2], d.edges[0]) = (1_001, (1, 0))), (BAD_COORDINATE, 23));
    assert_eq!(with(&cube, |d| (d.edges[1], d.edges[9]) = ((0, 1), (7, 0))), (BAD_EDGE, 9));
    // Two couples at one place: the lower vertex of the lowest couple.
    assert_eq!(with(&cube, |d| (d.vertices[6], d.vertices[5]) = (d.vertices[2], d.vertices[3])), (SAME_PLACE, 2));
    assert_eq!(with(&cube, |d| d.edges.retain(|e| ![e.0, e.1].iter().any(|v| *v == 3 || *v == 6))), (LOOSE_VERTEX, 3));
}

#[test]
fn lists_are_refused_where_no_sheet_could_be() {
    let (xyz, ends) = cube().lists();
    let lent = |xyz: &[i64], ends: &[i64]| refusal(both(Source::Lists(xyz, ends), 0, (832, 24)).answer);
    assert_eq!(lent(&xyz[1..], &ends[1..]), (BAD_COUNT, 0));
    assert_eq!(lent(&xyz, &ends[1..]), (BAD_COUNT, 1));
    assert_eq!(lent(&[], &[]), (BAD_COUNT, 0));
    assert_eq!(lent(&[0; 99], &ends), (BAD_COUNT, 0));
    assert_eq!(lent(&xyz, &[0; 130]), (BAD_COUNT, 1));
    for (value, number) in [(-1_001, 8), (-1_000, 0), (1_000, 0), (1_001, 8), (i64::MIN, 8), (i64::MAX, 8)] {
        let mut bad = xyz.clone();
        bad[10] = value;
        assert_eq!(lent(&bad, &ends).0 == 8, number == 8);
    }
    for value in [-1, 8, 31, 255, i64::MIN, i64::MAX] {
        let mut bad = ends.clone();
        bad[5] = value;
        assert_eq!(lent(&xyz, &bad), (BAD_EDGE, 2));
    }
}

#[test]
fn pieces_apart_get_the_lowest_vertex() {
    let mut d = tetrahedron();
    d.vertices.extend(d.vertices.clone().iter().map(|p| [p[0] + 20, p[1], p[2]]));
    d.edges.extend(d.edges.clone().iter().map(|(a, b)| (a + 4, b + 4)));
    assert_eq!(refusal(converted(&d, 0).answer), (APART, 4));
}

#[test]
fn many_loops_and_many_candidates() {
    assert_eq!(refusal(converted(&plate(5, 5, false), 0).answer), (MANY_LOOPS, 0));
    // No four places in a plane: 165, 84 and 56 triangles.
    assert_eq!(refusal(converted(&complete(&general(11)), 0).answer), (MANY_LOOPS, 0));
    assert_eq!(refusal(converted(&complete(&general(9)), 0).answer), (MANY_CANDIDATES, 0));
    assert_eq!(converted(&complete(&general(8)), 0).answer, ended(TOO_LONG, 56, 56, 0));
}

#[test]
fn the_writer_refuses_5_8_9_10_then_1() {
    let (xyz, ends) = cube().lists();
    let sheet = pack_sheet(&cube());
    let mut room = vec![9; 60];
    assert_eq!(write_sheet(&xyz, &ends, &mut room), Ok(51));
    assert_eq!(room, [&sheet[..], &[9; 9]].concat());
    let refused = |xyz: &[i64], ends: &[i64]| {
        let mut room = vec![9; 50];
        let answer = write_sheet(xyz, ends, &mut room).unwrap_err();
        assert_eq!(room, [9; 50]);
        (answer.number, answer.place)
    };
    assert_eq!(refused(&xyz, &ends), (NO_ROOM, 0));
    assert_eq!(refused(&xyz[1..], &ends[1..]), (BAD_COUNT, 0));
    assert_eq!(refused(&xyz, &ends[1..]), (BAD_COUNT, 1));
    assert_eq!(refused(&[&xyz[..23], &[1_001]].concat(), &ends), (BAD_COORDINATE, 23));
    assert_eq!(refused(&xyz, &[&[1, 0], &ends[2..]].concat()), (BAD_EDGE, 0));
    assert_eq!(refused(&xyz, &[&ends[2..4], &ends[..2], &ends[4..]].concat()), (EDGE_ORDER, 1));
    // 11 and later are not the writer's: all vertices at one place are written and read back.
    assert_eq!(write_sheet(&[0; 24], &ends, &mut room), Ok(51));
    assert_eq!(read_sheet(&room[..51]).unwrap().vertices, [[0; 3]; 8]);
}
