//! The face-list check with bit sets.
use super::clash::clashes;
use super::drawing::{field, fill, Drawing};
use super::flat::six_volumes;
use super::loops::{EdgeNumbers, Loop, LONGEST, NO_EDGE};
use super::passed::{drawing_rules, Passed};
use super::sets::first;
use crate::numbers::*;
use crate::source::Source;

/// A face of the list, in its own direction.
struct Face {
    corners: usize,
    ring: [u8; LONGEST],
    /// Its edges, and those it runs upwards.
    edges: u64,
    up: u64,
    candidate: usize,
}

pub fn check(source: Source, list: &[u8]) -> Result<(), Refusal> {
    let passed = drawing_rules(source)?;
    let d = &passed.drawing;
    let Some(mut faces) = read(list, d.vertices) else { return refuse(SHELL_SHAPE, 0) };
    let taken = each_a_candidate_once(&passed, &mut faces)?;
    edges_run_once_each_way(d, &faces)?;
    joined_to_face_0(&faces)?;
    if faces.iter().map(|f| six_volumes(d, &f.ring[..f.corners])).sum::<i64>() <= 0 {
        return refuse(INWARD, 0);
    }
    let clashes = clashes(d, &passed.candidates);
    match faces.iter().position(|f| clashes[f.candidate] & taken != 0) {
        Some(face) => refuse(CLASH, face),
        None => Ok(()),
    }
}

/// The list's faces without their edges; nothing is ShellShape. (Fields past the end read as 0; the length is compared
/// at the end.)
fn read(list: &[u8], vertices: usize) -> Option<Vec<Face>> {
    let mut at = 0;
    let mut next = |width: usize| {
        let value = field(list, at, width);
        at += width;
        value as usize
    };
    let (edition, count) = (next(width::EDITION), next(width::FACES));
    if edition != EDITION as usize || !FACES.contains(&count) {
        return None;
    }
    let mut faces = Vec::with_capacity(count);
    for _ in 0..count {
        let corners = next(width::CORNERS);
        if !CORNERS.contains(&corners) {
            return None;
        }
        let mut face = Face { corners, ring: [0; LONGEST], edges: 0, up: 0, candidate: 0 };
        for corner in &mut face.ring[..corners] {
            *corner = next(width::END) as u8;
        }
        if face.ring[..corners].iter().any(|c| *c as usize >= vertices) {
            return None;
        }
        faces.push(face);
    }
    (list.len() == at.div_ceil(8) && fill(list, at) == 0).then_some(faces)
}

/// 21 and 22; gives the set of candidates.
fn each_a_candidate_once(passed: &Passed, faces: &mut [Face]) -> Result<u64, Refusal> {
    let number = passed.drawing.edge_numbers();
    for (f, face) in faces.iter_mut().enumerate() {
        match find(face, &number, &passed.candidates) {
            Some(candidate) => face.candidate = candidate,
            None => return refuse(NOT_CANDIDATE, f),
        }
    }
    let mut taken = 0;
    for (f, face) in faces.iter().enumerate() {
        if taken >> face.candidate & 1 == 1 {
            return refuse(FACE_TWICE, f);
        }
        taken |= 1 << face.candidate;
    }
    Ok(taken)
}

/// Follows the face's edges; a closed path of different corners is known by its set of edges.
fn find(face: &mut Face, number: &EdgeNumbers, candidates: &[Loop]) -> Option<usize> {
    let mut seen = 0u32;
    let mut before = face.ring[face.corners - 1];
    for v in face.ring[..face.corners].iter().copied() {
        let e = number[before as usize][v as usize];
        if e == NO_EDGE || seen >> v & 1 == 1 {
            return None;
        }
        seen |= 1 << v;
        face.edges |= 1 << e;
        face.up |= ((before < v) as u64) << e;
        before = v;
    }
    candidates.iter().position(|c| c.edge_set == face.edges)
}

/// 23 over all edges, then 24.
fn edges_run_once_each_way(d: &Drawing, faces: &[Face]) -> Result<(), Refusal> {
    let every = first(d.edges);
    match every & !exactly(2, faces.iter().map(|f| f.edges)) {
        0 => {}
        bad => return refuse(EDGE_COUNT, bad.trailing_zeros() as usize),
    }
    match every & !exactly(1, faces.iter().map(|f| f.up)) {
        0 => Ok(()),
        bad => refuse(DIRECTION, bad.trailing_zeros() as usize),
    }
}

/// The members that are in exactly `n` of the sets, for n 1 or 2.
fn exactly(n: usize, sets: impl Iterator<Item = u64>) -> u64 {
    // in_more[k] are those in more than k sets
    let in_more = sets.fold([0u64; 3], |[a, b, c], set| [a | set, b | a & set, c | b & set]);
    in_more[n - 1] & !in_more[n]
}

/// 25
fn joined_to_face_0(faces: &[Face]) -> Result<(), Refusal> {
    let mut joined = faces[0].edges;
    loop {
        let more = faces.iter().filter(|f| f.edges & joined != 0).fold(joined, |joined, f| joined | f.edges);
        if more == joined {
            break;
        }
        joined = more;
    }
    match faces.iter().position(|f| f.edges & joined == 0) {
        Some(face) => refuse(PIECES, face),
        None => Ok(()),
    }
}
