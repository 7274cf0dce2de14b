//! `desk`, `check`, `rows`, `limits`, `calls` and `moves`: what the reference says.
use super::args::{say, Args};
use nibgravel_reference::calls;
use nibgravel_reference::check::verdict;
use nibgravel_reference::convert::convert;
use nibgravel_reference::desk::desk_with;
use nibgravel_reference::fast;
use nibgravel_reference::numbers::MOST_SOLIDS;
use nibgravel_reference::rows::{self, row, Order, ANY, KINDS, SMALL};
use std::io::{BufWriter, Read, Write};

pub fn desk(args: &Args) -> Result<(), String> {
    args.allow(1, &["version"])?;
    let converter = if args.choice("version", &["clear", "fast"])? == "fast" { fast::convert } else { convert };
    let mut sheet = vec![];
    std::io::stdin().read_to_end(&mut sheet).map_err(|e| e.to_string())?;
    say(&desk_with(converter, &sheet))
}

pub fn check(args: &Args) -> Result<(), String> {
    args.allow(3, &[])?;
    let read = |path: &str| std::fs::read(path).map_err(|e| format!("{path}: {e}"));
    say(&verdict(&read(args.path(1)?)?, &read(args.path(2)?)?))
}

pub fn rows(args: &Args) -> Result<(), String> {
    args.allow(1, &["kind", "count", "seed", "cap", "size"])?;
    let size = if args.choice("size", &["small", "any"])? == "any" { ANY } else { SMALL };
    let order = Order { seed: args.number("seed", 1)?, cap: args.number("cap", MOST_SOLIDS)?, size };
    if !(1..=MOST_SOLIDS).contains(&order.cap) {
        return Err("--cap is from 1 to 8".to_string());
    }
    let kind = args.choice("kind", &[&["all"], &KINDS[..]].concat())?;
    let count: u64 = args.number("count", 100)?;
    let number = |k: u64| match KINDS.iter().position(|name| *name == kind) {
        Some(kind) => k * KINDS.len() as u64 + kind as u64,
        None => k,
    };
    let mut out = BufWriter::new(std::io::stdout().lock());
    for k in 0..count {
        writeln!(out, "{}", row(&order, number(k))).map_err(|e| format!("standard output: {e}"))?;
    }
    out.flush().map_err(|e| format!("standard output: {e}"))
}

pub fn limits(args: &Args) -> Result<(), String> {
    args.allow(1, &[])?;
    rows::limits().iter().try_for_each(|row| say(&format!("{row}\n")))
}

pub fn calls(args: &Args) -> Result<(), String> {
    args.allow(1, &["count", "seed"])?;
    put(&calls::calls(args.number("seed", 7)?, args.number("count", 42_000)?))
}

pub fn moves(args: &Args) -> Result<(), String> {
    args.allow(2, &["count", "seed"])?;
    let kind = args.word(1).filter(|kind| calls::KINDS.contains(kind));
    let kind = kind.ok_or_else(|| format!("a move is of kind {}", calls::KINDS.join(", ")))?;
    put(&calls::moved(kind, args.number("seed", 13)?, args.number("count", 20_000)?))
}

fn put(stream: &[u8]) -> Result<(), String> {
    let mut out = std::io::stdout().lock();
    out.write_all(stream).and_then(|()| out.flush()).map_err(|e| format!("standard output: {e}"))
}
