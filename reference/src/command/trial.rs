//! `trial`: input and expected output of the trial programs.
use super::args::Args;
use nibgravel_reference::calls::requests;
use nibgravel_reference::numbers::MOST_SOLIDS;
use nibgravel_reference::rows::{Order, SMALL};
use nibgravel_reference::trial::{checks, desks, geometry, loops, sheets, walks};
use std::fs;
use std::path::Path;

pub fn trial(args: &Args) -> Result<(), String> {
    args.allow(3, &["count", "seed"])?;
    let (count, seed) = (args.number("count", 200)?, args.number("seed", 11)?);
    let dir = Path::new(args.path(2)?);
    let trial = match args.word(1) {
        Some("pipe") => {
            let pipe = requests(seed, count);
            return store(dir, &pipe.input, &pipe.output);
        }
        Some("sheet") => sheets(&Order { seed, cap: MOST_SOLIDS, size: SMALL }, count),
        Some("geometry") => geometry(seed, count),
        Some("loops") => loops(seed, count),
        Some("walk") => walks(seed, count),
        Some("desk") => desks(seed, count),
        Some("check") => checks(seed, count),
        _ => return Err("a trial is of kind sheet, geometry, loops, walk, desk, check or pipe".to_string()),
    };
    store(dir, &trial.input, trial.output.as_bytes())
}

fn store(dir: &Path, input: &[u8], output: &[u8]) -> Result<(), String> {
    fs::write(dir.join("stdin"), input)
        .and_then(|()| fs::write(dir.join("stdout"), output))
        .map_err(|e| format!("{}: {e}", dir.display()))
}
