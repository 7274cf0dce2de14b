//! Sheets that are asked about one after another, and what is said of each, in words and as fields of JSON.
use crate::answers::{advice, advised};
use crate::clerk::Clerk;
use crate::input;
use crate::json::Json;
use crate::model::{Assessment, Conversion, Reading, Refusal};
use crate::trouble::{Problem, Trouble, FINE, REFUSED};
use nibgravel_numbers::Place;
use std::collections::VecDeque;
use std::ffi::OsStr;

/// Enough that the program never waits for a request, and little to hold.
const AHEAD: usize = 32;

/// What is said of a sheet, or why its file can't be read.
pub type Row = Result<Assessment, Problem>;

/// Tells of each file in turn, which is read as it comes. An unreadable one stops none of the others.
pub fn each<F>(
    clerk: &mut Clerk,
    limit: u64,
    files: impl Iterator<Item = (F, Result<Vec<u8>, Problem>)>,
    mut tell: impl FnMut(F, Row) -> Result<(), Trouble>,
) -> Result<(), Trouble> {
    let mut asked: VecDeque<(F, Result<(), Problem>)> = VecDeque::new();
    let mut next = |clerk: &mut Clerk, (file, read): (F, Result<(), Problem>)| match read {
        Ok(()) => tell(file, Ok(clerk.assessment()?)),
        Err(problem) => tell(file, Err(problem)),
    };
    for (file, read) in files {
        asked.push_back((file, read.map(|sheet| clerk.ask_all(&sheet, limit))));
        if asked.len() == AHEAD {
            asked.pop_front().map_or(Ok(()), |first| next(clerk, first))?;
        }
    }
    asked.into_iter().try_for_each(|one| next(clerk, one))
}

/// All that is said of one file's sheet.
pub fn one(file: &OsStr, limit: u64) -> Result<Assessment, Trouble> {
    let sheet = read(file)?;
    let mut clerk = Clerk::start()?;
    clerk.ask_all(&sheet, limit);
    clerk.assessment()
}

/// The first bytes of a file that the command can't do without.
pub fn read(file: &OsStr) -> Result<Vec<u8>, Trouble> {
    input::item(file).map_err(|problem| Trouble::file(input::shown(file), problem))
}

/// Why there is no volume: the reading's number, and the place of what was refused.
pub fn refusal(assessment: &Assessment) -> Option<Refusal> {
    let number = match assessment.reading {
        Reading::Volume(_) => return None,
        Reading::NotAssessed(number) => number,
    };
    let place = match &assessment.conversion {
        Conversion::Report { .. } => 0,
        Conversion::Ended { search, .. } => search.work,
        Conversion::Refused(refusal) => refusal.place,
    };
    Some(Refusal { number, place })
}

/// As `1.92 cubic metres`, or `not assessed 13 EdgeMeets, edge 4: ..`.
pub fn reading(assessment: &Assessment) -> String {
    match (assessment.reading, refusal(assessment)) {
        (Reading::Volume(volume), _) => format!("{volume} cubic metres"),
        (Reading::NotAssessed(number), refusal) => {
            format!("not assessed {}", advised(refusal.unwrap_or(Refusal { number, place: 0 })))
        }
    }
}

pub fn status(assessment: &Assessment) -> u8 {
    match assessment.reading {
        Reading::Volume(_) => FINE,
        Reading::NotAssessed(_) => REFUSED,
    }
}

/// The fields of a refusal; a place that is always 0 is left out.
pub fn refusal_fields(refusal: Refusal) -> Vec<(&'static str, Json)> {
    let (number, counted) = (refusal.number, refusal.number.place());
    let mut fields = vec![("number", number.into()), ("name", number.name().into())];
    if counted != Place::None {
        fields.extend([("place", refusal.place.into()), ("place_is", counted.word().into())]);
    }
    fields.push(("advice", advice(number).into()));
    fields
}

/// The fields of a reading: `assessed`, and the volume or the refusal.
pub fn reading_fields(assessment: &Assessment) -> Vec<(&'static str, Json)> {
    match (assessment.reading, refusal(assessment)) {
        (Reading::Volume(volume), _) => vec![("assessed", true.into()), ("cubic_metres", volume.into())],
        (_, refusal) => {
            let mut fields = vec![("assessed", false.into())];
            fields.extend(refusal.map(refusal_fields).unwrap_or_default());
            fields
        }
    }
}
