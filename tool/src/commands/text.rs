//! `text`: a sheet as plain text.
use super::objects::{object, refused};
use crate::args::Args;
use crate::clerk::{Clerk, Request};
use crate::command::{file, output, Command, Takes};
use crate::json::Json;
use crate::model::Drawing;
use crate::output::save;
use crate::rows::read;
use crate::text::written;
use crate::trouble::{Trouble, FINE};

pub const COMMAND: Command = Command {
    name: "text",
    about: "a sheet as plain text, to be read or edited; `sheet` is the way back",
    operands: &[file("FILE")],
    options: &[output("TEXT", Takes::File, "the file to write; else standard output")],
    details: &[
        "Each vertex is a line `v x y z`, in centimetres, and each edge a line `e a b` between two vertices; # begins \
         a comment. Both are numbered from 0 in the order in which they stand.",
        "With --json an object with file, vertices and edges is written instead.",
    ],
    example: ("text samples/box.sheet -o box.txt", ""),
};

pub fn run(args: &Args) -> Result<u8, Trouble> {
    let file = args.word(0);
    let sheet = read(file)?;
    let mut clerk = Clerk::start()?;
    clerk.ask(Request::Read { sheet: &sheet });
    let drawing = match clerk.drawing()? {
        Ok(drawing) => drawing,
        Err(refusal) => return refused(args, file, refusal),
    };
    let text = if args.json() { object(file, fields(&drawing)) } else { written(&drawing) };
    save(args.output(), text.as_bytes(), true)?;
    Ok(FINE)
}

fn fields(drawing: &Drawing) -> Vec<(&'static str, Json)> {
    vec![
        ("vertices", Json::List(drawing.vertices.iter().map(|corner| Json::list(*corner)).collect())),
        ("edges", Json::List(drawing.edges.iter().map(|ends| Json::list(*ends)).collect())),
    ]
}
