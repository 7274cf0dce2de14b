//! Document 01's table in words: what is wrong, what passing a rule says, and what to do. docs/ANSWERS.md has the whole of it.
use crate::model::Refusal;
use nibgravel_numbers::{Number, COORDINATE, CORNERS, EDGES, MOST_CANDIDATES, MOST_LOOPS, MOST_WORK, VERTICES};
use std::fmt::Display;
use std::ops::RangeInclusive;

/// In a metre.
const CENTIMETRES: i64 = 100;

/// As `13 EdgeMeets, edge 4: Ask for ..`.
pub fn advised(refusal: Refusal) -> String {
    format!("{refusal}: {}", advice(refusal.number))
}

/// As `4 to 32`.
pub fn ends(range: &RangeInclusive<impl Display>) -> String {
    format!("{} to {}", range.start(), range.end())
}

fn counts() -> String {
    format!("{} vertices and {} edges", ends(&VERTICES), ends(&EDGES))
}

/// As `1,000,000`.
pub fn grouped(number: u64) -> String {
    let digits = number.to_string();
    let first = (digits.len() + 2) % 3 + 1;
    let mut text = digits[..first].to_string();
    for group in digits.as_bytes()[first..].chunks(3) {
        text.push(',');
        text.extend(group.iter().map(|digit| char::from(*digit)));
    }
    text
}

/// What is wrong.
#[rustfmt::skip]
pub fn wrong(number: Number) -> String {
    match number {
        Number::NoRoom => "the asking program gave too little room for the answer".into(),
        Number::BadLimit => format!("the work limit is above {}", grouped(MOST_WORK)),
        Number::SheetShort => "the file has fewer than three bytes".into(),
        Number::SheetEdition => "the file doesn't say that it is of edition 1".into(),
        Number::BadCount => format!("there are not {}", counts()),
        Number::SheetLength => "the file is shorter or longer than its own counts say".into(),
        Number::SheetPad => "the unused bits at the end of the file are not zero".into(),
        Number::BadCoordinate => format!("a coordinate is more than {} metres from the origin", COORDINATE.end() / CENTIMETRES),
        Number::BadEdge => "an end of this edge is no vertex, or its ends are not in rising order".into(),
        Number::EdgeOrder => "this edge is not above the one before it".into(),
        Number::SamePlace => "this vertex is at the same point as another".into(),
        Number::LooseVertex => "this vertex is on no edge".into(),
        Number::EdgeMeets => "this edge touches or crosses a vertex or another edge other than at its own ends".into(),
        Number::Apart => "this vertex can't be reached from vertex 0 along edges".into(),
        Number::ManyLoops => format!("the edges make more than {MOST_LOOPS} closed flat paths of up to {} corners", CORNERS.end()),
        Number::ManyCandidates => format!("there are more than {MOST_CANDIDATES} possible walls"),
        Number::NoSolid => "all was searched, and these edges close no body".into(),
        Number::Many => "there are nine bodies or more".into(),
        Number::TooLong => "the search was stopped at the work limit, and it is not known what the drawing allows".into(),
        Number::ShellShape => "the face list can't be read".into(),
        Number::NotCandidate => "this face can't be a wall of the drawing".into(),
        Number::FaceTwice => "this face stands earlier in the list".into(),
        Number::EdgeCount => "this edge doesn't have exactly two walls, so the body is not closed".into(),
        Number::Direction => "the two walls at this edge run it the same way".into(),
        Number::Pieces => "this face is not joined to the first by walls that share edges".into(),
        Number::Inward => "the walls face inward, or they enclose nothing".into(),
        Number::Clash => "this face goes through another one, or pokes a corner into it".into(),
        Number::Ambiguous => "two to eight different bodies have exactly these edges".into(),
    }
}

/// What a sheet that passes it has; nothing but of the drawing rules.
#[rustfmt::skip]
pub fn passed(number: Number) -> String {
    match number {
        Number::SheetShort => "the file has at least three bytes".into(),
        Number::SheetEdition => "it is of edition 1".into(),
        Number::BadCount => format!("it has {}", counts()),
        Number::SheetLength => "it is as long as its counts say".into(),
        Number::SheetPad => "its unused bits are zero".into(),
        Number::BadCoordinate => format!("no coordinate is more than {} metres from the origin", COORDINATE.end() / CENTIMETRES),
        Number::BadEdge => "the ends of every edge are vertices, in rising order".into(),
        Number::EdgeOrder => "the edges are sorted, and none stands twice".into(),
        Number::SamePlace => "no two vertices are at one point".into(),
        Number::LooseVertex => "every vertex is on an edge".into(),
        Number::EdgeMeets => "edges meet at their ends only".into(),
        Number::Apart => "the drawing is in one piece".into(),
        Number::ManyLoops => format!("there are at most {MOST_LOOPS} loops"),
        Number::ManyCandidates => format!("there are at most {MOST_CANDIDATES} candidates"),
        _ => String::new(),
    }
}

/// One sentence on what to do.
#[rustfmt::skip]
pub fn advice(number: Number) -> String {
    match number {
        Number::NoRoom => "ask the operator for more room; the drawing is not at fault.".into(),
        Number::BadLimit => format!("ask again with a limit of at most {}; the drawing is not at fault.", grouped(MOST_WORK)),
        Number::SheetShort => "ask for the whole file.".into(),
        Number::SheetEdition => "ask for an export in edition 1.".into(),
        Number::BadCount => format!("ask for a drawing of {}.", counts()),
        Number::SheetLength => "ask for the file again, since something was cut off or added.".into(),
        Number::SheetPad => "ask for a new export.".into(),
        Number::BadCoordinate => "ask for that vertex to be checked, or for an origin closer to the enclosure.".into(),
        Number::BadEdge => "ask for a new export, or for this edge to be drawn anew.".into(),
        Number::EdgeOrder => "ask for an export with sorted edges, and for one of two equal edges to be deleted.".into(),
        Number::SamePlace => "ask for one vertex instead of the two, or for one of them to be moved.".into(),
        Number::LooseVertex => "ask for the vertex to be deleted, or for the edges that it should have.".into(),
        Number::EdgeMeets => "ask for a vertex where they meet, with the edges divided there, or for the edge to be moved.".into(),
        Number::Apart => "ask for a drawing of its own for each body, or for the edge that is missing.".into(),
        Number::ManyLoops => "ask for a simpler drawing, with fewer edges in one plane.".into(),
        Number::ManyCandidates => "ask for a simpler drawing.".into(),
        Number::NoSolid => "ask for the edges or corners that are missing, often just one, and whether it is one body at all.".into(),
        Number::Many => "ask for a drawing that says more, with fewer edges that can be of several bodies, or for one of each part.".into(),
        Number::TooLong => format!("ask again with a higher limit, up to {}, and otherwise for a simpler drawing.", grouped(MOST_WORK)),
        Number::ShellShape => "ask for the list again: its edition, a count, its length, its unused bits or a corner number is wrong.".into(),
        Number::NotCandidate => "ask for the wall along the edges as drawn, in as many faces as the edges divide it into.".into(),
        Number::FaceTwice => "ask for one of the two to be taken out.".into(),
        Number::EdgeCount => "ask for the wall that is missing, or for the one too many to be taken out.".into(),
        Number::Direction => "ask for one of the two walls at this edge the other way round.".into(),
        Number::Pieces => "ask for a drawing and a list of its own for each body.".into(),
        Number::Inward => "ask for every face the other way round.".into(),
        Number::Clash => "ask for both walls to be redrawn where they meet.".into(),
        Number::Ambiguous => "ask which walls exist, and for a drawing with an edge or a corner that only the real body has.".into(),
    }
}

#[cfg(test)]
mod tests {
    use super::*;
    use nibgravel_numbers::DRAWING_RULES;

    #[test]
    fn the_drawing_rules_say_what_passing_them_means() {
        for number in Number::all() {
            assert_eq!(passed(number).is_empty(), !DRAWING_RULES.contains(&number), "{number}");
        }
    }

    #[test]
    fn limits_are_told_as_the_document_tells_them() {
        assert_eq!(wrong(Number::BadCount), "there are not 4 to 32 vertices and 6 to 64 edges");
        assert_eq!(wrong(Number::BadLimit), "the work limit is above 1,000,000");
        assert_eq!([7, 100, 1_234, 56_789].map(grouped), ["7", "100", "1,234", "56,789"]);
    }
}
