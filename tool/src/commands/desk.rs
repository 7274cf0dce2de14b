//! `desk`: the desk's text.
use super::objects::put_object;
use crate::args::Args;
use crate::clerk::{Clerk, Request};
use crate::command::{file, Command};
use crate::output::put;
use crate::rows::{read, status};
use crate::trouble::Trouble;

pub const COMMAND: Command = Command {
    name: "desk",
    about: "the desk's text of a sheet, byte for byte as the desk program prints it",
    operands: &[file("FILE")],
    options: &[],
    details: &[
        "It lists the six volumes of every solid, also where there are several: the text is no assessment. The exit \
         status is that of assess.",
        "With --json the object has file and text.",
    ],
    example: (
        "desk samples/octahedron.sheet",
        "wire 6 12\nloops 11 candidates 11\nwork 4\nsolids 1\nsolid 1 sixvolumes 8000 faces +1 -2 -3 +4 -6 +7 +8 -9",
    ),
};

pub fn run(args: &Args) -> Result<u8, Trouble> {
    let sheet = read(args.word(0))?;
    let mut clerk = Clerk::start()?;
    // The text says nothing of the reading, so that is asked for by itself.
    clerk.ask(Request::Desk { sheet: &sheet });
    clerk.ask_all(&sheet, args.limit()?);
    let (text, assessment) = (clerk.desk()?, clerk.assessment()?);
    if args.json() {
        put_object(args.word(0), vec![("text", String::from_utf8_lossy(&text).as_ref().into())])?;
    } else {
        put(&text)?;
    }
    Ok(status(&assessment))
}
