//! The solids of a report in words, and what several of them share.
use crate::json::Json;
use crate::model::{shared, Face, Reading, Solid};

/// Every solid, and where there are several, which walls differ. A volume stands here only where it was assessed.
pub fn explain_solids(candidates: &[Vec<usize>], solids: &[Solid], reading: Reading) -> String {
    let mut text = String::new();
    for (k, solid) in solids.iter().enumerate() {
        let assessed = match reading {
            Reading::Volume(volume) => format!("{volume} cubic metres, six volumes {} cm3", solid.six),
            Reading::NotAssessed(_) => format!("six volumes {} cm3 (not an assessment)", solid.six),
        };
        text += &format!("\nsolid {}: {assessed}, {} faces\n", k + 1, solid.faces.len());
        for face in &solid.faces {
            text += &format!("  {}\n", face_line(face));
        }
    }
    text += "\nA face is told by its candidate, + as in normal form or - against it, and its corners as they go round \
             anticlockwise, seen from outside.\n";
    match reading {
        Reading::Volume(_) => text,
        Reading::NotAssessed(_) => text + &explain_ambiguous(candidates, solids),
    }
}

fn face_line(face: &Face) -> String {
    let signed = format!("{}{}", if face.turned { '-' } else { '+' }, face.candidate);
    format!("{signed:>3}: {}", spaced(&face.corners))
}

fn explain_ambiguous(candidates: &[Vec<usize>], solids: &[Solid]) -> String {
    let mut text = format!("\nambiguous: {} solids have exactly these edges\n", solids.len());
    let in_all: Vec<usize> = in_all(solids).collect();
    text += &match in_all.len() {
        0 => "  no wall is in all of them\n".to_string(),
        count => format!("  {count} walls are in all of them: {}\n", spaced(&in_all)),
    };
    for (candidate, owners) in owners(solids) {
        let corners = candidates.get(candidate).map_or(String::new(), |corners| spaced(corners));
        text += &format!("  wall {candidate} ({corners}) is in {} only\n", listed(&owners));
    }
    text
}

/// The walls that all solids have.
pub fn in_all(solids: &[Solid]) -> impl Iterator<Item = usize> {
    numbers(shared(solids))
}

/// The walls that some have and some don't, each with the numbers of those that have it.
fn owners(solids: &[Solid]) -> Vec<(usize, Vec<usize>)> {
    let any = solids.iter().fold(0, |any, solid| any | solid.taken);
    let of = |candidate: usize| {
        let has = |(k, solid): (usize, &Solid)| (solid.taken >> candidate & 1 == 1).then_some(k + 1);
        solids.iter().enumerate().filter_map(has).collect()
    };
    numbers(any & !shared(solids)).map(|candidate| (candidate, of(candidate))).collect()
}

pub fn differing(solids: &[Solid]) -> Json {
    let wall = |(candidate, owners): (usize, Vec<usize>)| {
        Json::Object(vec![("candidate", candidate.into()), ("solids", Json::list(owners))])
    };
    Json::List(owners(solids).into_iter().map(wall).collect())
}

/// Six volumes are marked by whether they are an assessment.
pub fn solid_object(solid: &Solid, assessed: bool) -> Json {
    let face = |face: &Face| {
        let corners = Json::list(face.corners.iter().copied());
        Json::Object(vec![("candidate", face.candidate.into()), ("turned", face.turned.into()), ("corners", corners)])
    };
    let faces = Json::List(solid.faces.iter().map(face).collect());
    Json::Object(vec![("six_volumes", solid.six.into()), ("assessed", assessed.into()), ("faces", faces)])
}

/// The numbers of the bits that are set.
fn numbers(word: u64) -> impl Iterator<Item = usize> {
    (0..u64::BITS as usize).filter(move |k| word >> k & 1 == 1)
}

fn spaced(numbers: &[usize]) -> String {
    numbers.iter().map(usize::to_string).collect::<Vec<_>>().join(" ")
}

/// As `solid 1` or `solids 1, 2 and 3`.
fn listed(solids: &[usize]) -> String {
    let words: Vec<String> = solids.iter().map(usize::to_string).collect();
    match words.as_slice() {
        [first @ .., last] if !first.is_empty() => format!("solids {} and {last}", first.join(", ")),
        _ => format!("solid {}", words.concat()),
    }
}
