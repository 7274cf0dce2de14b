//! `assess`: the reading of each sheet.
use super::objects::put_object;
use crate::args::Args;
use crate::clerk::Clerk;
use crate::command::{Command, Operand, Takes, LIMIT};
use crate::input::{item, shown};
use crate::output::put;
use crate::rows::{each, reading, reading_fields, status, Row};
use crate::trouble::{Trouble, FINE, TROUBLE};
use std::ffi::OsStr;

pub const COMMAND: Command = Command {
    name: "assess",
    about: "the reading of each sheet: a volume in cubic metres, or why there is none",
    operands: &[Operand { name: "FILE", takes: Takes::File, many: true }],
    options: &[LIMIT],
    details: &[
        "Only a drawing that allows exactly one solid has a volume. Every other one is not assessed: the line says \
         the number of document 01, its place, and what to ask for. That is no estimate and no zero.",
        "With --json each object has file and assessed, and then cubic_metres, or number, name, place, place_is and \
         advice; a file that can't be read has unreadable.",
    ],
    example: ("assess samples/box.sheet", "samples/box.sheet: 1.92 cubic metres"),
};

pub fn run(args: &Args) -> Result<u8, Trouble> {
    let (limit, mut highest) = (args.limit()?, FINE);
    let files = args.words().iter().map(|file| (file, item(file)));
    each(&mut Clerk::start()?, limit, files, |file, row| {
        highest = highest.max(row.as_ref().map_or(TROUBLE, status));
        tell(args, file, row)
    })?;
    Ok(highest)
}

fn tell(args: &Args, file: &OsStr, row: Row) -> Result<(), Trouble> {
    match row {
        Ok(assessment) if args.json() => put_object(file, reading_fields(&assessment)),
        Ok(assessment) => put(format!("{}: {}\n", shown(file), reading(&assessment)).as_bytes()),
        Err(problem) => {
            let unreadable = problem.to_string();
            Trouble::file(shown(file), problem).tell();
            if args.json() {
                put_object(file, vec![("unreadable", unreadable.into())])?;
            }
            Ok(())
        }
    }
}
