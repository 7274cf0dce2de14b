//! The rows: repeatable, small, and between them every refusal.
use nibgravel_reference::convert::{convert_most, Answer};
use nibgravel_reference::gen::known::octahedron;
use nibgravel_reference::gen::limits::nine_solids;
use nibgravel_reference::numbers::{Limits, DOCUMENTED, FACE_ROOM, MOST_WORK, SOLID_ROOM};
use nibgravel_reference::rows::{limits, row, Order, KINDS, SMALL};
use nibgravel_reference::source::Source;
use std::collections::BTreeSet;

fn rows(kind: &str, cap: usize, count: u64) -> Vec<String> {
    let order = Order { seed: 1, cap, size: SMALL };
    let kind = KINDS.iter().position(|name| *name == kind).unwrap() as u64;
    (0..count).map(|k| row(&order, k * KINDS.len() as u64 + kind)).collect()
}

/// The number that stands after `"name":` where it first occurs.
fn number(row: &str, name: &str) -> Option<u32> {
    let after = row.split_once(&format!("\"{name}\":"))?.1;
    after.split(|c: char| !c.is_ascii_digit()).next()?.parse().ok()
}

/// The numbers of the answers; 0 where an answer has none.
fn answers(rows: &[String]) -> BTreeSet<u32> {
    let answer =
        |row: &String| row.split_once("\"answer\":").map(|(_, answer)| number(answer.split("},").next()?, "number"));
    rows.iter().map(|row| answer(row).flatten().unwrap_or(0)).collect()
}

#[test]
fn a_row_depends_on_its_number_only() {
    for kind in KINDS {
        let long = rows(kind, 8, 30);
        assert_eq!(rows(kind, 8, 10), long[..10]);
        assert!(long.iter().all(|row| row.starts_with(&format!("{{\"kind\":\"{kind}\",")) && row.ends_with('}')));
    }
}

#[test]
fn drawings_meet_1_to_19() {
    let expected: BTreeSet<u32> = [0, 1, 2, 5].into_iter().chain(8..=19).collect();
    for cap in [1, 3, 8] {
        assert_eq!(answers(&rows("drawing", cap, 96)), expected, "cap {cap}");
    }
}

#[test]
fn sheets_meet_3_to_10_and_writers_their_five() {
    assert_eq!(answers(&rows("sheet", 8, 20)), [0].into_iter().chain(3..=10).collect());
    assert_eq!(answers(&rows("write", 8, 14)), [0, 1, 5, 8, 9, 10].into_iter().collect());
}

#[test]
fn lists_meet_20_to_27() {
    let expected: BTreeSet<u32> = [0].into_iter().chain(20..=27).collect();
    assert!(answers(&rows("list", 8, 34)).is_superset(&expected));
}

#[test]
fn pairs_meet_every_rule() {
    let rows = rows("pair", 8, 300);
    for fact in ["\"a\":[true,", "\"a\":[false,true]", "\"b\":[true,", "\"c\":[true,true]", "\"covers\":true"] {
        assert!(rows.iter().filter(|row| row.contains(fact)).count() > 5, "{fact}");
    }
    assert!(rows.iter().all(|row| !row.contains("\"c\":[true,false]") && !row.contains("\"c\":[false,true]")));
}

#[test]
fn limits_meet_every_number_and_reading() {
    let (rows, named) = (limits(), |kind: &str| format!("{{\"kind\":\"{kind}\","));
    let of = |kind: &str| rows.iter().filter(|row| row.starts_with(&named(kind))).cloned().collect::<Vec<_>>();
    let numbers = |all: &[u32]| all.iter().copied().collect::<BTreeSet<u32>>();
    let conversion = [0, 1, 2, 5].into_iter().chain(8..=19).collect::<Vec<u32>>();
    assert_eq!(answers(&of("drawing")), numbers(&conversion));
    assert_eq!(answers(&of("list")), [0, 5].into_iter().chain(8..=16).chain(20..=27).collect());
    assert_eq!(answers(&of("ruled")), [0, 21, 26].into_iter().chain(3..=10).collect());
    assert_eq!(answers(&of("sheet")), [0].into_iter().chain(3..=10).collect());
    assert_eq!(answers(&of("write")), numbers(&[0, 1, 5, 8, 9, 10]));
    assert_eq!(answers(&of("sent")), numbers(&[0, 1, 20]));
    let reading = |row: &String| row.split_once("\"reading\":").and_then(|(_, reading)| number(reading, "number"));
    let readings: BTreeSet<u32> = of("drawing").iter().map(|row| reading(row).unwrap_or(0)).collect();
    assert_eq!(readings, conversion.into_iter().chain([30]).collect());
    for text in ["solids 1\\n", "solids 3\\n", "no solid\\n", "many\\n", "refused 14 4\\n"] {
        assert!(of("desk").iter().any(|row| row.contains(text)), "{text}");
    }
}

#[test]
fn nine_solids_are_nine() {
    let (xyz, ends) = nine_solids().lists();
    let most = Limits { solids: 9, ..DOCUMENTED };
    let answer = convert_most(most, Source::Lists(&xyz, &ends), MOST_WORK, &mut [0; FACE_ROOM], &mut [0; 27]);
    assert!(matches!(answer, Answer::Report { solids: 9, .. }), "{answer:?}");
}

#[test]
fn limits_refuse_at_one_more() {
    let (xyz, ends) = octahedron().lists();
    for (loops, candidates, number) in [(11, 11, 0), (10, 11, 15), (11, 10, 16), (10, 10, 15)] {
        let most = Limits { loops, candidates, ..DOCUMENTED };
        let answer = convert_most(most, Source::Lists(&xyz, &ends), 4, &mut [0; FACE_ROOM], &mut [0; SOLID_ROOM]);
        assert_eq!(answer.number(), number, "{loops} {candidates}");
    }
}
