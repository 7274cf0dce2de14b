//! The command `nibgravel` for people. Every answer comes from the proved program over a pipe (docs/PIPE.md), and none
//! from here.
#![forbid(unsafe_code)]

pub mod answers;
pub mod args;
pub mod clerk;
pub mod command;
pub mod commands;
pub mod help;
pub mod input;
pub mod json;
pub mod ledger;
pub mod model;
pub mod output;
pub mod page;
pub mod picture;
pub mod rows;
pub mod text;
pub mod trouble;

use args::Args;
use commands::Run;
use std::ffi::OsString;
use trouble::{Trouble, TROUBLE};

/// Runs a command line, without the program's own name: the exit status.
pub fn run(words: impl Iterator<Item = OsString>) -> u8 {
    ran(words.collect()).unwrap_or_else(|trouble| {
        trouble.tell();
        TROUBLE
    })
}

fn ran(words: Vec<OsString>) -> Result<u8, Trouble> {
    let Some(first) = words.first() else { return Err(missing("a command is missing")) };
    if first == "--help" || first == "-h" {
        return output::say(&help::overview(&commands::all()));
    }
    if first == "--version" {
        return output::say(&help::version());
    }
    let (command, run) =
        commands::find(first).ok_or_else(|| missing(&format!("no command {}", input::shown(first))))?;
    let args = Args::parse(command, &words[1..])?;
    if args.has("help") {
        return output::say(&help::of(command));
    }
    if args.has("version") {
        return output::say(&help::version());
    }
    args.counted()?;
    match run {
        Run::Line(run) => run(&args),
        Run::Listing(run) => run(&args, &commands::all()),
    }
}

fn missing(what: &str) -> Trouble {
    Trouble::Misuse(format!("{what}; see nibgravel --help"))
}
