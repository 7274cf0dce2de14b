//! The desk program's text for one sheet.
use crate::convert::{convert, Answer};
use crate::numbers::*;
use crate::sheet::read_sheet;
use crate::source::Source;

pub type Converter = fn(Source, u64, &mut [u8], &mut [u64]) -> Answer;

pub fn desk(sheet: &[u8]) -> String {
    desk_with(convert, sheet)
}

/// The same with another converter.
pub fn desk_with(converter: Converter, sheet: &[u8]) -> String {
    let mut solid_room = [0; SOLID_ROOM];
    match converter(Source::Sheet(sheet), MOST_WORK, &mut [0; FACE_ROOM], &mut solid_room) {
        Answer::Refused(Refusal { number, place }) => format!("refused {number} {place}\n"),
        Answer::Ended { number, loops, candidates, work } => {
            let last = match number {
                NO_SOLID => "no solid",
                MANY => "many",
                _ => "too long",
            };
            format!("{}{last}\n", head(sheet, loops, candidates, work))
        }
        Answer::Report { loops, candidates, work, solids } => {
            let mut text = format!("{}solids {solids}\n", head(sheet, loops, candidates, work));
            for (k, words) in solid_room.chunks(3).take(solids as usize).enumerate() {
                text += &solid_line(k + 1, words);
            }
            text
        }
    }
}

fn head(sheet: &[u8], loops: u32, candidates: u32, work: u32) -> String {
    let (vertices, edges) = read_sheet(sheet).map_or((0, 0), |d| (d.vertices.len(), d.edges.len()));
    format!("wire {vertices} {edges}\nloops {loops} candidates {candidates}\nwork {work}\n")
}

fn solid_line(number: usize, words: &[u64]) -> String {
    let (taken, turned, six_volumes) = (words[0], words[1], words[2]);
    let mut line = format!("solid {number} sixvolumes {six_volumes} faces");
    for c in (0..MOST_CANDIDATES).filter(|c| taken >> c & 1 == 1) {
        let sign = if turned >> c & 1 == 1 { '-' } else { '+' };
        line += &format!(" {sign}{c}");
    }
    line + "\n"
}
