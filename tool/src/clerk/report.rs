//! A report's rooms: a row for each candidate and three words for each solid.
use super::words::{within, word, Parsed};
use crate::model::{Conversion, Face, Search, Solid};
use nibgravel_numbers::{CORNERS, FACES, FACE_ROOM, FILL, ROW, SOLIDS, SOLID_WORDS, VERTICES};

/// Of both rooms, one behind the other.
pub fn report(search: Search, solids: u64, rooms: &[u8]) -> Parsed<Conversion> {
    let solids = within("solids", solids, SOLIDS)? as usize;
    let (rows, words) = rooms.split_at(FACE_ROOM);
    let rows = rows.chunks_exact(ROW).take(search.candidates as usize);
    let candidates = rows.map(candidate).collect::<Parsed<Vec<_>>>()?;
    let solid = |k: usize| solid(&candidates, [0, 1, 2].map(|part| word(words, SOLID_WORDS * k + part)));
    let solids = (0..solids).map(solid).collect::<Parsed<Vec<_>>>()?;
    Ok(Conversion::Report { search, candidates, solids })
}

/// The rows of a report again, as they are asked for where a solid is to be written as a face list.
pub fn rows(candidates: &[Vec<usize>]) -> Vec<u8> {
    let row = |corners: &Vec<usize>| {
        let mut row = [FILL; ROW];
        for (byte, number) in row.iter_mut().zip([corners.len()].iter().chain(corners)) {
            *byte = *number as u8;
        }
        row
    };
    candidates.iter().flat_map(row).collect()
}

fn candidate(row: &[u8]) -> Parsed<Vec<usize>> {
    let count = within("corners of a candidate", row[0].into(), CORNERS)? as usize;
    let (corners, fill) = row[1..].split_at(count);
    if corners.iter().any(|corner| usize::from(*corner) >= *VERTICES.end()) || fill.iter().any(|byte| *byte != FILL) {
        return Err("said a candidate whose corners are not numbers of vertices".to_string());
    }
    Ok(corners.iter().map(|corner| (*corner).into()).collect())
}

fn solid(candidates: &[Vec<usize>], [taken, turned, six]: [u64; SOLID_WORDS]) -> Parsed<Solid> {
    let known = u64::MAX.checked_shr(u64::BITS - candidates.len() as u32).unwrap_or(0);
    if taken & !known != 0 || turned & !taken != 0 || six == 0 {
        return Err("said a solid of faces that are no candidates, or of no volume".to_string());
    }
    within("faces of a solid", taken.count_ones().into(), FACES)?;
    let has = |word: u64, k: usize| word >> k & 1 == 1;
    let face = |(k, corners): (usize, &Vec<usize>)| {
        has(taken, k).then(|| Face { candidate: k, turned: has(turned, k), corners: run(corners, has(turned, k)) })
    };
    let faces = candidates.iter().enumerate().filter_map(face).collect();
    Ok(Solid { taken, turned, six, faces })
}

/// The corners in the order in which a face is run: from the lowest, and the other way round where it is turned.
fn run(corners: &[usize], turned: bool) -> Vec<usize> {
    let mut corners = corners.to_vec();
    if turned {
        corners[1..].reverse();
    }
    corners
}
