//! The face-list check: the drawing rules, then 20 to 27.
use crate::clash::clash;
use crate::convert::{drawing_rules, Passed};
use crate::drawing::{Drawing, Loop};
use crate::face_list::read_faces;
use crate::loops::{loop_edges, normal_form, runs_up};
use crate::numbers::*;
use crate::polygon::{six_volumes, Point};
use crate::source::Source;
use std::collections::HashSet;

pub fn check(source: Source, list: &[u8]) -> Result<(), Refusal> {
    let passed = drawing_rules(source)?;
    let d = &passed.drawing;
    let Some(faces) = read_faces(list, d.vertices.len()) else { return refuse(SHELL_SHAPE, 0) };
    each_a_candidate_once(&passed, &faces)?;
    let on_edge = faces_on_edges(d, &faces);
    edges_run_once_each_way(d, &faces, &on_edge)?;
    joined_to_face_0(faces.len(), &on_edge)?;
    let points: Vec<Vec<Point>> = faces.iter().map(|face| d.points(face)).collect();
    if points.iter().map(|face| six_volumes(face)).sum::<i128>() <= 0 {
        return refuse(INWARD, 0);
    }
    no_clash(&points)
}

/// The line of an answer.
pub fn verdict(sheet: &[u8], list: &[u8]) -> String {
    match check(Source::Sheet(sheet), list) {
        Ok(()) => "accepted\n".to_string(),
        Err(refusal) => format!("refused {} {}\n", refusal.number, refusal.place),
    }
}

/// 21 and 22.
fn each_a_candidate_once(passed: &Passed, faces: &[Loop]) -> Result<(), Refusal> {
    let normal: Vec<Loop> = faces.iter().map(|face| normal_form(face)).collect();
    if let Some(face) = normal.iter().position(|face| !passed.candidates.contains(face)) {
        return refuse(NOT_CANDIDATE, face);
    }
    if let Some(face) = (0..faces.len()).find(|face| normal[..*face].contains(&normal[*face])) {
        return refuse(FACE_TWICE, face);
    }
    Ok(())
}

fn faces_on_edges(d: &Drawing, faces: &[Loop]) -> Vec<Vec<usize>> {
    let edges: Vec<Vec<usize>> = faces.iter().map(|face| loop_edges(d, face)).collect();
    let on = |e: usize| (0..faces.len()).filter(|face| edges[*face].contains(&e)).collect();
    (0..d.edges.len()).map(on).collect()
}

/// 23 over all edges, then 24.
fn edges_run_once_each_way(d: &Drawing, faces: &[Loop], on_edge: &[Vec<usize>]) -> Result<(), Refusal> {
    if let Some(e) = on_edge.iter().position(|on| on.len() != 2) {
        return refuse(EDGE_COUNT, e);
    }
    let runs = |e: usize| on_edge[e].iter().filter(|face| runs_up(d, &faces[**face], e)).count();
    if let Some(e) = (0..on_edge.len()).find(|e| runs(*e) != 1) {
        return refuse(DIRECTION, e);
    }
    Ok(())
}

/// 25
fn joined_to_face_0(faces: usize, on_edge: &[Vec<usize>]) -> Result<(), Refusal> {
    let mut joined = HashSet::from([0]);
    for _ in 0..faces {
        for on in on_edge {
            if on.iter().any(|face| joined.contains(face)) {
                joined.extend(on);
            }
        }
    }
    match (0..faces).find(|face| !joined.contains(face)) {
        Some(face) => refuse(PIECES, face),
        None => Ok(()),
    }
}

/// 27
fn no_clash(faces: &[Vec<Point>]) -> Result<(), Refusal> {
    let clashes = |f: usize| (0..faces.len()).any(|g| g != f && clash(&faces[f], &faces[g]).is_some());
    match (0..faces.len()).find(|f| clashes(*f)) {
        Some(face) => refuse(CLASH, face),
        None => Ok(()),
    }
}
