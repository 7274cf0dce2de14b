//! `draw`: a picture of a sheet's drawing and its solids.
use super::objects::{put_object, refused};
use crate::args::Args;
use crate::command::{file, output, Command, Takes};
use crate::input::shown;
use crate::output::save;
use crate::picture::picture;
use crate::rows::{one, refusal, status};
use crate::trouble::Trouble;

pub const COMMAND: Command = Command {
    name: "draw",
    about: "a picture of a sheet's drawing and its solids, as SVG",
    operands: &[file("FILE")],
    options: &[output("PICTURE", Takes::File, "the file to write; else standard output")],
    details: &[
        "The exit status is that of assess: a drawing that is refused is drawn too, with what is wrong. A sheet that \
         can't be read (3 to 10) has no drawing, and nothing is written.",
        "With --json the object has file and length; the picture itself goes to the file of -o.",
    ],
    example: ("draw samples/box.sheet -o box.svg", ""),
};

pub fn run(args: &Args) -> Result<u8, Trouble> {
    let file = args.word(0);
    args.apart_from_json("picture")?;
    let assessment = one(file, args.limit()?)?;
    let Some(drawing) = &assessment.drawing else {
        return match refusal(&assessment) {
            Some(why) => refused(args, file, why),
            None => Err(Trouble::file(shown(file), "there is no drawing")),
        };
    };
    let svg = picture(drawing, &assessment.conversion);
    save(args.output(), svg.as_bytes(), true)?;
    if args.json() {
        put_object(file, vec![("length", svg.len().into())])?;
    }
    Ok(status(&assessment))
}
