//! `ledger`: what the ledger of a folder has to be.
use super::args::{say, Args};
use nibgravel_reference::convert::convert;
use nibgravel_reference::fast;
use nibgravel_reference::ledger;
use std::path::Path;

pub fn ledger(args: &Args) -> Result<(), String> {
    args.allow(2, &["version"])?;
    let converter = if args.choice("version", &["fast", "clear"])? == "fast" { fast::convert } else { convert };
    let folder = args.path(1)?;
    say(&ledger::ledger(converter, Path::new(folder)).map_err(|e| format!("{folder}: {e}"))?)
}
