//! What several tests use: conversion by both versions at once, and the face lists of solids.
use nibgravel_reference::check::check;
use nibgravel_reference::convert::{convert, drawing_rules, Answer, Passed};
use nibgravel_reference::drawing::{Drawing, Loop};
use nibgravel_reference::face_list::pack_faces;
use nibgravel_reference::fast;
use nibgravel_reference::moves::Converted;
use nibgravel_reference::numbers::*;
use nibgravel_reference::sheet::pack_sheet;
use nibgravel_reference::solids::Table;
use nibgravel_reference::source::Source;
use nibgravel_reference::walk::walk;

/// Converts by both versions into rooms of these lengths, compares them, and sees that nothing else is written.
pub fn both(source: Source, limit: u64, rooms: (usize, usize)) -> Converted {
    let (faces, solids) = (vec![0xa5; rooms.0], vec![0xdead_beef; rooms.1]);
    let run = |converter| Converted::of(converter, source, limit, &faces, &solids);
    let clear = run(convert);
    assert_eq!(clear, run(fast::convert), "{source:?}");
    let rows = match clear.answer {
        Answer::Report { candidates, .. } => FACE_ROW * candidates as usize,
        _ => 0,
    };
    assert!(clear.faces[rows..].iter().all(|byte| *byte == 0xa5));
    assert!(clear.solids[clear.words().len()..].iter().all(|word| *word == 0xdead_beef));
    clear
}

/// A drawing's conversion, the same from its sheet and from its lists.
pub fn converted(d: &Drawing, limit: u64) -> Converted {
    let (xyz, ends) = d.lists();
    let outcome = both(Source::Lists(&xyz, &ends), limit, (840, 30));
    assert_eq!(outcome, both(Source::Sheet(&pack_sheet(d)), limit, (840, 30)));
    outcome
}

pub fn report(loops: u32, candidates: u32, work: u32, solids: u32) -> Answer {
    Answer::Report { loops, candidates, work, solids }
}

pub fn ended(number: u32, loops: u32, candidates: u32, work: u32) -> Answer {
    Answer::Ended { number, loops, candidates, work }
}

/// Number and place; 0 and 0 where there is no refusal.
pub fn refusal(answer: Answer) -> (u32, u32) {
    match answer {
        Answer::Refused(refusal) => (refusal.number, refusal.place),
        Answer::Ended { number, work, .. } => (number, work),
        Answer::Report { .. } => (0, 0),
    }
}

pub fn passed(d: &Drawing) -> Passed {
    drawing_rules(Source::Sheet(&pack_sheet(d))).expect("a drawing that passes the rules")
}

pub fn turned(face: &Loop) -> Loop {
    face.iter().rev().copied().collect()
}

/// The faces of each solid, in their directions.
pub fn solids_of(d: &Drawing) -> Vec<Vec<Loop>> {
    let passed = passed(d);
    let table = Table::new(&passed.drawing, &passed.candidates);
    let face =
        |(c, t): (&usize, &bool)| if *t { turned(&passed.candidates[*c]) } else { passed.candidates[*c].clone() };
    let solids = walk(&table, MOST_WORK, MOST_SOLIDS).solids;
    solids.iter().map(|solid| solid.taken.iter().zip(&solid.turned).map(face).collect()).collect()
}

/// The check's answer by both versions; 0 and 0 is accepted.
pub fn checked(source: Source, list: &[u8]) -> (u32, u32) {
    let answer = check(source, list);
    assert_eq!(answer, fast::check(source, list), "{source:?} {list:?}");
    answer.map_or_else(|refusal| (refusal.number, refusal.place), |()| (0, 0))
}

pub fn verdict(d: &Drawing, faces: &[Loop]) -> (u32, u32) {
    checked(Source::Sheet(&pack_sheet(d)), &pack_faces(faces))
}
