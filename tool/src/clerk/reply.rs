//! Replies of docs/PIPE.md, from bytes. What no right program says is an error, so that it is never shown as an answer.
use super::report;
use super::words::{within, word, Parsed, WORD};
use crate::answers::grouped;
use crate::model::{Conversion, Drawing, Reading, Refusal, Search};
use nibgravel_numbers::{Number, CONVERSION, DRAWING_RULES, ENDED, LIST_RULES, SHEET_RULES};
use nibgravel_numbers::{COORDINATE, EDGES, MOST_CANDIDATES, MOST_LOOPS, MOST_WORK, VERTICES};
use nibgravel_numbers::{COORDINATES, ENDS, FACE_ROOM, LIST_BYTES, SHEET_BYTES, SOLID_ROOM, TEXT_BYTES};

pub const HELLO: &[u8; 16] = b"nibgravel pipe 1";

const SAID: usize = nibgravel_numbers::SAID * WORD;

/// The lengths of the replies, by kind.
pub const READ: usize = SAID + COORDINATES * WORD + ENDS;
pub const CONVERTED: usize = SAID + 2 * WORD + FACE_ROOM + SOLID_ROOM * WORD;
pub const CHECKED: usize = SAID;
pub const SHEET: usize = SAID + SHEET_BYTES;
pub const LIST: usize = SAID + LIST_BYTES;
pub const DESK: usize = SAID + TEXT_BYTES;

/// What is refused, if anything is: a number of the table that this request can get, and a place that it can have.
fn refusal(bytes: &[u8], can_get: impl Fn(&Number) -> bool) -> Parsed<Option<Refusal>> {
    let (said, place) = (word(bytes, 0), word(bytes, 1));
    if said == 0 {
        return Ok(None);
    }
    let known = u8::try_from(said).ok().and_then(|number| Number::try_from(number).ok()).filter(can_get);
    let number = known.ok_or_else(|| format!("said {said}, which is no answer to what it was asked"))?;
    let place = within(&format!("the place of {}", u8::from(number)), place, 0..=number.place().most())?;
    Ok(Some(Refusal { number, place }))
}

pub fn read(bytes: &[u8; READ]) -> Parsed<Result<Drawing, Refusal>> {
    if let Some(refusal) = refusal(bytes, |number| SHEET_RULES.contains(number))? {
        return Ok(Err(refusal));
    }
    let vertices = within("vertices", word(bytes, 2), VERTICES)? as usize;
    let edges = within("edges", word(bytes, 3), EDGES)? as usize;
    let (xyz, ends) = bytes[SAID..].split_at(COORDINATES * WORD);
    let corner = |k: usize| [0, 1, 2].map(|axis| word(xyz, 3 * k + axis) as i64);
    let vertices: Vec<[i64; 3]> = (0..vertices).map(corner).collect();
    if vertices.as_flattened().iter().any(|number| !COORDINATE.contains(number)) {
        return Err(format!("said a coordinate above {}", grouped(COORDINATE.end().unsigned_abs())));
    }
    let edges: Vec<[usize; 2]> = ends.chunks_exact(2).take(edges).map(|e| [e[0].into(), e[1].into()]).collect();
    if edges.iter().any(|[low, high]| low >= high || *high >= vertices.len()) {
        return Err("said an edge whose ends are no vertices in rising order".to_string());
    }
    Ok(Ok(Drawing { vertices, edges }))
}

pub fn converted(bytes: &[u8; CONVERTED]) -> Parsed<(Conversion, Reading)> {
    let (shown, rooms) = bytes[SAID..].split_at(2 * WORD);
    let conversion = match refusal(bytes, |number| CONVERSION.contains(number))? {
        Some(Refusal { number, place }) if ENDED.contains(&number) => {
            Conversion::Ended { number, search: search(bytes, place)? }
        }
        Some(refusal) => Conversion::Refused(refusal),
        None => report::report(search(bytes, word(bytes, 4))?, word(bytes, 5), rooms)?,
    };
    let reading = reading(&conversion, word(shown, 0), f64::from_bits(word(shown, 1)))?;
    match &conversion {
        Conversion::Report { solids, .. } if solids.len() == 1 && solids[0].six != word(bytes, 6) => {
            Err("said two different six volumes of one solid".to_string())
        }
        _ => Ok((conversion, reading)),
    }
}

fn search(bytes: &[u8], work: u64) -> Parsed<Search> {
    let loops = within("loops", word(bytes, 2), 0..=MOST_LOOPS)?;
    let candidates = within("candidates", word(bytes, 3), 0..=MOST_CANDIDATES.min(loops as usize))?;
    Ok(Search { loops, candidates, work: within("the work", work, 0..=MOST_WORK as usize)? })
}

/// The reading has to be the one that goes with the answer: a volume with one solid only.
fn reading(conversion: &Conversion, number: u64, volume: f64) -> Parsed<Reading> {
    let why = match conversion {
        Conversion::Report { solids, .. } if solids.len() == 1 => None,
        Conversion::Report { .. } => Some(Number::Ambiguous),
        Conversion::Ended { number, .. } | Conversion::Refused(Refusal { number, .. }) => Some(*number),
    };
    let right = why.map_or(0, u8::from);
    if number != u64::from(right) {
        return Err(format!("said {number} for a reading that has to be {right}"));
    }
    match why {
        None if volume.is_finite() && volume > 0.0 => Ok(Reading::Volume(volume)),
        None => Err("said a volume that is no number above 0".to_string()),
        Some(why) => Ok(Reading::NotAssessed(why)),
    }
}

pub fn checked(bytes: &[u8; CHECKED]) -> Parsed<Result<(), Refusal>> {
    let refused = refusal(bytes, |number| DRAWING_RULES.contains(number) || LIST_RULES.contains(number))?;
    Ok(refused.map_or(Ok(()), Err))
}

/// What was written into a room: a sheet, a face list or a text.
pub fn written(bytes: &[u8], can_get: impl Fn(&Number) -> bool) -> Parsed<Result<Vec<u8>, Refusal>> {
    if let Some(refusal) = refusal(bytes, can_get)? {
        return Ok(Err(refusal));
    }
    let room = &bytes[SAID..];
    let length = within("the length of what it wrote", word(bytes, 2), 1..=room.len())?;
    Ok(Ok(room[..length as usize].to_vec()))
}
