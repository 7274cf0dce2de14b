//! `sheet`: a plain text as a sheet.
use super::objects::{put_object, refused_at};
use crate::answers::{advised, ends};
use crate::args::Args;
use crate::clerk::{Clerk, Request};
use crate::command::{file, output, Command, Takes};
use crate::input::{first, shown, ITEM};
use crate::model::Refusal;
use crate::output::save;
use crate::text::{self, Lists, LONGEST_TEXT};
use crate::trouble::{Trouble, FINE};
use nibgravel_numbers::{Number, COORDINATE, EDGES, VERTICES};

pub const COMMAND: Command = Command {
    name: "sheet",
    about: "a plain text, as `text` writes it, as a sheet",
    operands: &[file("FILE")],
    options: &[output("SHEET", Takes::File, "the file to write; else standard output, unless that is a terminal")],
    details: &[
        "Edges may stand in any order and either way round: they are sorted, with the lower end first. What is \
         refused is said with the line on which it stands, as box.txt:12; of too many or too few vertices or edges \
         that is the last one's. Whether the drawing makes sense is for assess to say.",
        "With --json the object has file and length, or refused with number, name, place, place_is and advice; the \
         sheet itself goes to the file of -o.",
    ],
    example: ("sheet box.txt -o box.sheet", ""),
};

pub fn run(args: &Args) -> Result<u8, Trouble> {
    let file = args.word(0);
    args.apart_from_json("sheet")?;
    let bytes = first(file, LONGEST_TEXT + 1).map_err(|problem| Trouble::file(shown(file), problem))?;
    let lists = text::read(&bytes).map_err(|wrong| Trouble::file(at(args, wrong.line), wrong.what))?;
    let mut clerk = Clerk::start()?;
    // Whole words and whole edges; what is cut off was too many already (docs/PIPE.md).
    let coordinates = &lists.coordinates[..lists.coordinates.len().min(ITEM / 8)];
    let ends = &lists.ends[..lists.ends.len().min(ITEM)];
    clerk.ask(Request::Write { coordinates, ends });
    match clerk.sheet()? {
        Ok(sheet) => {
            save(args.output(), &sheet, false)?;
            if args.json() {
                put_object(file, vec![("length", sheet.len().into())])?;
            }
            Ok(FINE)
        }
        Err(refusal) => {
            refused_at(args, file, &at(args, line_of(&lists, refusal)), refusal, &in_a_text(&lists, refusal))
        }
    }
}

fn at(args: &Args, line: usize) -> String {
    format!("{}:{line}", shown(args.word(0)))
}

/// The line that a place stands for: of a vertex or an edge its own, of a list its last one's, and else the text's
/// last.
fn line_of(lists: &Lists, refusal: Refusal) -> usize {
    let place = refusal.place as usize;
    let line = match (refusal.number, place) {
        (Number::BadCount, 0) => lists.vertex_lines.last(),
        (Number::BadCount, _) => lists.edge_lines.iter().max(),
        (Number::BadCoordinate, _) => lists.vertex_lines.get(place / 3),
        _ => lists.edge_lines.get(place),
    };
    line.copied().unwrap_or(lists.lines)
}

/// The refusal in the words of a text, whose edges are sorted by the tool and not by whoever wrote it.
fn in_a_text(lists: &Lists, refusal: Refusal) -> String {
    let name = refusal.number;
    match (refusal.number, refusal.place) {
        (Number::BadCount, 0) => {
            format!("{name}: there are {} vertices, and {} are allowed.", lists.vertex_lines.len(), ends(&VERTICES))
        }
        (Number::BadCount, _) => {
            format!("{name}: there are {} edges, and {} are allowed.", lists.edge_lines.len(), ends(&EDGES))
        }
        (Number::BadCoordinate, place) => {
            let (axis, far) = (["x", "y", "z"][place as usize % 3], COORDINATE.end());
            format!("{name}: {axis} of this vertex is more than {far} centimetres from the origin.")
        }
        (Number::BadEdge, _) => format!("{name}: an end of this edge is no vertex, or both ends are the same."),
        (Number::EdgeOrder, _) => format!("{name}: this edge stands twice; delete one of the two."),
        _ => advised(refusal),
    }
}
