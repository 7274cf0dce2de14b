//! What stays of a conversion when vertices get new numbers and edges are sorted again.
use super::converted::Converted;
use crate::convert::Answer;
use crate::drawing::Loop;
use crate::face_list::solid_faces;
use crate::numbers::*;

/// Of a drawing's conversion and of that of the drawing with number `new[v]` for vertex v: the same refusal, wherever it is; or as many
/// loops and candidates and, if neither is Many or TooLong, the same solids in some order.
pub fn corresponds(new: &[usize], here: &Converted, there: &Converted) -> bool {
    match (counts(&here.answer), counts(&there.answer)) {
        (Some(a), Some(b)) => {
            a == b && (cut_off(here) || cut_off(there) || bodies(here, |v| new[v]) == bodies(there, |v| v))
        }
        (None, None) => here.answer.number() == there.answer.number(),
        _ => false,
    }
}

/// Loops and candidates of a drawing that isn't refused.
fn counts(answer: &Answer) -> Option<(u32, u32)> {
    match *answer {
        Answer::Refused(_) => None,
        Answer::Ended { loops, candidates, .. } | Answer::Report { loops, candidates, .. } => Some((loops, candidates)),
    }
}

fn cut_off(said: &Converted) -> bool {
    [MANY, TOO_LONG].contains(&said.answer.number())
}

/// Directed faces, each from its lowest corner, and six volumes.
type Body = (Vec<Loop>, u64);

/// The solids of a report under new numbers, sorted.
fn bodies(said: &Converted, new: impl Fn(usize) -> usize) -> Vec<Body> {
    let body = |words: &[u64]| {
        let faces = solid_faces(&said.faces, words).expect("a solid makes a face list");
        let renewed = faces.iter().map(|face| from_lowest(&face.iter().map(|v| new(*v)).collect::<Loop>()));
        (sorted(renewed), words[2])
    };
    sorted(said.words().chunks(3).map(body))
}

fn sorted<T: Ord>(items: impl Iterator<Item = T>) -> Vec<T> {
    let mut items: Vec<T> = items.collect();
    items.sort();
    items
}

/// The same directed face from its lowest corner.
pub fn from_lowest(face: &[usize]) -> Loop {
    let lowest = (0..face.len()).min_by_key(|k| face[*k]).expect("a face has corners");
    [&face[lowest..], &face[..lowest]].concat()
}
