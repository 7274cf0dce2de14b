//! `check`: the verdict on a face list.
use super::objects::put_object;
use crate::answers::advised;
use crate::args::Args;
use crate::clerk::Clerk;
use crate::command::{file, Command};
use crate::output::put;
use crate::rows::{read, refusal_fields};
use crate::trouble::{Trouble, FINE, REFUSED};

pub const COMMAND: Command = Command {
    name: "check",
    about: "whether a face list names a solid of the sheet",
    operands: &[file("FILE"), file("LIST")],
    options: &[],
    details: &[
        "FILE is a sheet and LIST a face list. An accepted list names one of the drawing's solids, with every wall \
         facing outward. The check never gives a volume.",
        "With --json the object has file, list and accepted, and where it is refused number, name, place, place_is \
         and advice.",
    ],
    example: ("check samples/box.sheet samples/box_walls.faces", "accepted"),
};

pub fn run(args: &Args) -> Result<u8, Trouble> {
    let (sheet, list) = (read(args.word(0))?, read(args.word(1))?);
    let mut clerk = Clerk::start()?;
    clerk.ask_verdict(&sheet, &list);
    let verdict = clerk.verdict()?;
    if args.json() {
        let listed = args.word(1).to_string_lossy();
        let mut fields = vec![("list", listed.as_ref().into()), ("accepted", verdict.is_ok().into())];
        fields.extend(verdict.err().map(refusal_fields).unwrap_or_default());
        put_object(args.word(0), fields)?;
    } else {
        let line = verdict.map_or_else(|refusal| format!("refused {}", advised(refusal)), |()| "accepted".to_string());
        put(format!("{line}\n").as_bytes())?;
    }
    Ok(if verdict.is_ok() { FINE } else { REFUSED })
}
