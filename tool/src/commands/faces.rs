//! `faces`: a solid as a face list.
use super::objects::{put_object, refused};
use crate::args::{number, Args};
use crate::clerk::{rows, Clerk, Request};
use crate::command::{file, output, Command, Operand, Takes};
use crate::input::shown;
use crate::model::{Conversion, Refusal};
use crate::output::save;
use crate::rows::read;
use crate::trouble::{Trouble, FINE};

pub const COMMAND: Command = Command {
    name: "faces",
    about: "solid N of a sheet as a face list",
    operands: &[file("FILE"), Operand { name: "N", takes: Takes::Number, many: false }],
    options: &[output("LIST", Takes::File, "the file to write; else standard output, unless that is a terminal")],
    details: &[
        "Solids are counted from 1, in the order in which explain and desk list them. The list is one that check \
         accepts.",
        "With --json the object has file, solid, faces and length; the list itself goes to the file of -o.",
    ],
    example: ("faces samples/box.sheet 1 -o box.faces", ""),
};

pub fn run(args: &Args) -> Result<u8, Trouble> {
    let file = args.word(0);
    let asked = number(args.word(1)).filter(|solid| *solid > 0);
    let asked = asked.ok_or_else(|| args.misuse("N is the number of a solid, from 1"))?;
    args.apart_from_json("list")?;
    let sheet = read(file)?;
    let mut clerk = Clerk::start()?;
    clerk.ask_all(&sheet, args.limit()?);
    let (candidates, solids) = match clerk.assessment()?.conversion {
        Conversion::Report { candidates, solids, .. } => (candidates, solids),
        Conversion::Ended { number, search } => return refused(args, file, Refusal { number, place: search.work }),
        Conversion::Refused(refusal) => return refused(args, file, refusal),
    };
    let solid = usize::try_from(asked - 1).ok().and_then(|k| solids.get(k));
    let solid = solid
        .ok_or_else(|| Trouble::file(shown(file), format!("there is no solid {asked}; it has {}", solids.len())))?;
    clerk.ask(Request::Faces { rows: &rows(&candidates), taken: solid.taken, turned: solid.turned });
    match clerk.face_list()? {
        Ok(list) => save(args.output(), &list, false).and_then(|()| told(args, asked, solid.faces.len(), list.len())),
        Err(refusal) => refused(args, file, refusal),
    }
}

fn told(args: &Args, solid: u64, faces: usize, length: usize) -> Result<u8, Trouble> {
    if args.json() {
        put_object(args.word(0), vec![("solid", solid.into()), ("faces", faces.into()), ("length", length.into())])?;
    }
    Ok(FINE)
}
