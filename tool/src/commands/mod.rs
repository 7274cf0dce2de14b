//! The commands, a file to each.
mod assess;
mod book;
mod check;
mod completion;
mod desk;
mod draw;
mod explain;
mod faces;
mod manual;
mod objects;
mod sheet;
mod text;

use crate::args::Args;
use crate::command::Command;
use crate::trouble::Trouble;
use std::ffi::OsStr;

/// What carries a command out: the exit status.
pub enum Run {
    /// By its line.
    Line(fn(&Args) -> Result<u8, Trouble>),
    /// By its line and what all commands are.
    Listing(fn(&Args, &[&Command]) -> Result<u8, Trouble>),
}

static COMMANDS: [(Command, Run); 11] = [
    (assess::COMMAND, Run::Line(assess::run)),
    (explain::COMMAND, Run::Line(explain::run)),
    (check::COMMAND, Run::Line(check::run)),
    (desk::COMMAND, Run::Line(desk::run)),
    (faces::COMMAND, Run::Line(faces::run)),
    (text::COMMAND, Run::Line(text::run)),
    (sheet::COMMAND, Run::Line(sheet::run)),
    (draw::COMMAND, Run::Line(draw::run)),
    (book::COMMAND, Run::Line(book::run)),
    (completion::COMMAND, Run::Listing(completion::run)),
    (manual::COMMAND, Run::Listing(manual::run)),
];

/// What each command is, in the order in which they are told.
pub fn all() -> Vec<&'static Command> {
    COMMANDS.iter().map(|(command, _)| command).collect()
}

/// The command of a name.
pub fn find(name: &OsStr) -> Option<&'static (Command, Run)> {
    COMMANDS.iter().find(|(command, _)| name == command.name)
}
