//! `gen`: a corpus with expected outputs.
use super::args::Args;
use nibgravel_reference::check::verdict;
use nibgravel_reference::desk::desk;
use nibgravel_reference::gen::lists::any_list;
use nibgravel_reference::gen::named::named;
use nibgravel_reference::gen::rng::Rng;
use nibgravel_reference::gen::sheets::any_sheet;
use nibgravel_reference::sheet::pack_sheet;
use nibgravel_reference::source::Source;
use std::fs;
use std::path::Path;

struct Case {
    name: String,
    sheet: Vec<u8>,
    list: Vec<u8>,
}

pub fn gen(args: &Args) -> Result<(), String> {
    args.allow(2, &["form", "count", "seed"])?;
    let dir = Path::new(args.path(1)?);
    let (count, seed) = (args.number("count", 100)?, args.number("seed", 1)?);
    let write = if args.choice("form", &["files", "book"])? == "book" { write_book } else { write_files };
    fs::create_dir_all(dir)
        .and_then(|()| write(dir, &cases(count, seed)))
        .map_err(|e| format!("{}: {e}", dir.display()))
}

fn cases(count: u64, seed: u64) -> Vec<Case> {
    let mut r = Rng::new(seed);
    let mut case = |name: String, sheet: Vec<u8>| {
        let list = any_list(&mut r, Source::Sheet(&sheet));
        Case { name, sheet, list }
    };
    let mut cases: Vec<Case> = named().into_iter().map(|(name, d)| case(name.to_string(), pack_sheet(&d))).collect();
    cases.extend((0..count).map(|k| case(format!("{k:06}"), any_sheet(&mut Rng::of_case(seed, k)))));
    cases
}

fn write_files(dir: &Path, cases: &[Case]) -> std::io::Result<()> {
    for case in cases {
        let write = |kind: &str, bytes: &[u8]| fs::write(dir.join(format!("{}.{kind}", case.name)), bytes);
        write("sheet", &case.sheet)?;
        write("desk", desk(&case.sheet).as_bytes())?;
        write("faces", &case.list)?;
        write("check", verdict(&case.sheet, &case.list).as_bytes())?;
    }
    Ok(())
}

fn write_book(dir: &Path, cases: &[Case]) -> std::io::Result<()> {
    let (mut corpus, mut expected) = (vec![], String::new());
    for case in cases {
        for bytes in [&case.sheet, &case.list] {
            corpus.extend((bytes.len() as u16).to_be_bytes());
            corpus.extend(bytes);
        }
        expected += &desk(&case.sheet);
        expected += &verdict(&case.sheet, &case.list);
    }
    fs::write(dir.join("corpus"), corpus)?;
    fs::write(dir.join("expected"), expected)
}
