//! `book`: every sheet of a folder, in a ledger and on a page.
use super::objects::put_object;
use crate::args::Args;
use crate::clerk::Clerk;
use crate::command::{output, Command, Operand, Takes, LIMIT};
use crate::input::{shown, stored};
use crate::json::Json;
use crate::ledger;
use crate::output::{put, Draft};
use crate::page::{self, Page};
use crate::rows::{each, refusal, status, Row};
use crate::trouble::{Trouble, FINE, TROUBLE};
use nibgravel_numbers::Number;
use std::collections::BTreeMap;
use std::ffi::{OsStr, OsString};
use std::io::{self, IsTerminal, Write};
use std::path::Path;

pub const COMMAND: Command = Command {
    name: "book",
    about: "every sheet of a folder, in ledger.csv and book.html",
    operands: &[Operand { name: "FOLDER", takes: Takes::Folder, many: false }],
    options: &[
        output("DIR", Takes::Folder, "the folder to write to, which is made where it is missing (FOLDER)"),
        LIMIT,
    ],
    details: &[
        "The sheets are the files *.sheet of the folder itself, in order of name. ledger.csv has a line for each: \
         file, answer, place, reading, solids, six volumes, work. The answer is 0 where it was assessed, 30 where \
         several solids are allowed, else the number of the refusal; `unreadable` where the file can't be read, which \
         stops no other. Reading (in cubic metres) and six volumes are empty where nothing was assessed.",
        "A file whose name begins like a formula (= + - @) is written with ./ before it. Both files appear whole, at \
         the end, or not at all. Standard output gets how often each answer came; the exit status is the highest of \
         assess.",
        "With --json that count is one object, with file (the folder), sheets and answers.",
    ],
    example: ("book samples -o book", include_str!("../../tests/expected/book/stdout.txt")),
};

pub fn run(args: &Args) -> Result<u8, Trouble> {
    let folder = Path::new(args.word(0));
    let names = names(folder).map_err(|error| Trouble::file(shown(folder), error))?;
    let limit = args.limit()?;
    let mut clerk = Clerk::start()?;
    let dir = args.output().map_or(folder, Path::new);
    let failed = |error: io::Error| Trouble::file(shown(dir), error);
    let mut book = Book::begin(dir, folder, names.len()).map_err(failed)?;
    let files = names.into_iter().map(|name| {
        let read = stored(&folder.join(&name));
        (name, read)
    });
    each(&mut clerk, limit, files, |name, row| book.row(&name, &row).map_err(failed))?;
    let tally = book.end().map_err(failed)?;
    tally.tell(args)?;
    Ok(tally.highest)
}

/// The names of a folder's sheets in order, as `*.sheet` finds them.
fn names(folder: &Path) -> io::Result<Vec<OsString>> {
    let mut names = vec![];
    for entry in std::fs::read_dir(folder)? {
        let name = entry?.file_name();
        let bytes = name.as_encoded_bytes();
        if bytes.ends_with(b".sheet") && !bytes.starts_with(b".") {
            names.push(name);
        }
    }
    names.sort();
    Ok(names)
}

/// How often each answer came, with none for those assessed; and last the files that can't be read.
#[derive(Default)]
struct Tally {
    sheets: usize,
    answers: BTreeMap<Option<Number>, u64>,
    unreadable: u64,
    highest: u8,
}

impl Tally {
    fn count(&mut self, row: &Row) {
        self.sheets += 1;
        match row {
            Ok(assessment) => {
                let number = refusal(assessment).map(|refusal| refusal.number);
                *self.answers.entry(number).or_default() += 1;
                self.highest = self.highest.max(status(assessment));
            }
            Err(_) => {
                self.unreadable += 1;
                self.highest = TROUBLE;
            }
        }
    }

    fn lines(&self) -> Vec<(String, u64)> {
        let name =
            |number: Option<Number>| number.map_or("assessed".to_string(), |number| format!("not assessed {number}"));
        let mut lines: Vec<(String, u64)> =
            self.answers.iter().map(|(number, count)| (name(*number), *count)).collect();
        if self.unreadable > 0 {
            lines.push((ledger::UNREADABLE.to_string(), self.unreadable));
        }
        lines
    }

    fn tell(&self, args: &Args) -> Result<(), Trouble> {
        if args.json() {
            let answer =
                |(name, count): (String, u64)| Json::Object(vec![("answer", name.into()), ("count", count.into())]);
            let answers = Json::List(self.lines().into_iter().map(answer).collect());
            return put_object(args.word(0), vec![("sheets", self.sheets.into()), ("answers", answers)]);
        }
        let total = format!("{:>8} sheets\n", self.sheets);
        put(self.lines().iter().fold(total, |text, (name, count)| format!("{text}{count:>8} {name}\n")).as_bytes())
    }
}

struct Book {
    ledger: Draft,
    page: Page<Draft>,
    tally: Tally,
    total: usize,
}

impl Book {
    fn begin(dir: &Path, folder: &Path, total: usize) -> io::Result<Book> {
        std::fs::create_dir_all(dir)?;
        let mut ledger = Draft::begin(&dir.join("ledger.csv"))?;
        ledger.write_all(ledger::HEADER.as_bytes())?;
        let page = Page::begin(Draft::begin(&dir.join("book.html"))?, &folder.to_string_lossy())?;
        let tally = Tally { highest: FINE, ..Tally::default() };
        Ok(Book { ledger, page, tally, total })
    }

    fn row(&mut self, name: &OsStr, row: &Row) -> io::Result<()> {
        let file = name.to_string_lossy();
        self.ledger.write_all(ledger::line(&file, row).as_bytes())?;
        let problem = row.as_ref().err().map(ToString::to_string);
        self.page.row(&page::Row { file: &file, assessment: row.as_ref().ok(), problem: problem.as_deref() })?;
        self.tally.count(row);
        self.progress();
        Ok(())
    }

    /// On a terminal, where someone waits.
    fn progress(&self) {
        let (done, mut terminal) = (self.tally.sheets, io::stderr());
        if (done % 64 == 0 || done == self.total) && terminal.is_terminal() {
            let end = if done == self.total { "\r\x1b[K" } else { "" };
            let _ = write!(terminal, "\r{done} of {} sheets{end}", self.total);
        }
    }

    /// Both files are whole on the disk before either appears.
    fn end(self) -> io::Result<Tally> {
        let (mut ledger, mut page) = (self.ledger, self.page.end()?);
        ledger.settle()?;
        page.settle()?;
        ledger.appear()?;
        page.appear()?;
        Ok(self.tally)
    }
}
