//! The program `reference`: the desk text, the face-list check, and the making and measuring of cases.
mod command;

use command::args::{say, Args};
use std::process::ExitCode;

const HELP: &str = "\
reference: document 01 in plain Rust, in a clear version and a fast one; `reference --version` says which release

  reference desk < SHEET
      reads a sheet from standard input and prints the desk text, by the clear version
      --version clear|fast   which version converts (clear)

  reference check SHEET FACES
      checks the face list in file FACES against the sheet in file SHEET: `accepted`, or `refused`, number, place

  reference ledger FOLDER
      prints what the command for people has to write to `ledger.csv` for the sheets *.sheet of FOLDER
      --version fast|clear   which version converts (fast)

  reference gen DIR
      writes a corpus with expected outputs: the named drawings, then generated and damaged sheets, each with a face
      list. Per case NAME.sheet, NAME.desk (the desk text), NAME.faces and NAME.check (the check's answer)
      --form files|book      book: in one file `corpus` sheet and face list of each case, each with its length in
                             2 bytes, high byte first, in front; in one file `expected` desk text and check's answer
      --count N              generated sheets (100)
      --seed S               (1)

  reference stats
      converts and checks generated sheets by both versions, counts the answers, and fails where the versions differ
      --count N              (10000)
      --seed S               (1)
      --limit L              of the work (20000)

  reference bench
      times the named drawings and 1,000 generated ones, by both versions

  reference rows
      prints cases with what the clear version says of each, one JSON object per line
      --kind K               drawing, sheet, write, pair, list, desk, or all in turn (all)
      --count N              (100)
      --seed S               (1)
      --cap C                the most solids reported, 1 to 8 (8); not for the desk, which has 8
      --size small|any       small: 4 to 10 vertices mostly, a few up to 16, little work (small)

  reference limits
      prints fixed cases in the same form: each number of the table by each function that gives it, each reading, each
      text of the desk, and the document's limits

  reference trial KIND DIR
      writes what a trial program reads, DIR/stdin, and what it must print, DIR/stdout. KIND is sheet (sheets read and
      written back), geometry (drawing rules 11 to 14, cover of loops, clash of candidates), loops (loops and candidates with
      their words), walk (work and solids of drawings under a work limit), desk (the desk's text of sheets), check
      (face lists checked against sheets) or pipe (requests of the program that answers over a pipe)
      --count N              generated cases of each sort (200)
      --seed S               (11)

  reference calls
      writes calls of the interface for other programs to standard output, each with what it must return and leave in the
      lists that are lent; src/calls/stream.rs has their form
      --count N              (42000)
      --seed S               (7)

  reference moves KIND
      writes calls in the same form, with moved drawings: what each must return and leave behind is told from what the
      reference says of the drawing unmoved. KIND is shift, mirror (x negated), renumbering (vertices renumbered, edges
      sorted again), limit (a higher limit of the work), exchange_xy or exchange_yz (of two axes), way (one of the 48 ways
      in which the axes can lie on the axes), quarter_turn or scaling (by a whole factor)
      --count N              drawings (20000)
      --seed S               (13)

  reference hunt
      searches generated drawings for solids that bound no region of space. Of each that passes the rules it takes the
      selections that have (i), (ii) and (v), and asks whether these can be given directions and have a volume, whether
      a face meets the inside of another, and whether the winding number round points is 0 or 1, the same along every
      ray, and odd where a ray meets an odd number of faces. Prints of each kind of finding the one with the fewest
      edges, then the counts; fails where something is found
      --count N              drawings (10000)
      --seed S               (1)
      --without R            a rule left out, to see that something is found then: nothing, A, B, C, or cover, so that
                             every loop is a candidate (nothing)
";

fn main() -> ExitCode {
    match run(Args::new(std::env::args().skip(1))) {
        Ok(()) => ExitCode::SUCCESS,
        Err(message) => {
            eprintln!("reference: {message}");
            ExitCode::FAILURE
        }
    }
}

fn run(args: Args) -> Result<(), String> {
    match args.word(0) {
        Some("desk") => command::texts::desk(&args),
        Some("check") => command::texts::check(&args),
        Some("gen") => command::corpus::gen(&args),
        Some("stats") => command::stats::stats(&args),
        Some("bench") => command::bench::bench(&args),
        Some("rows") => command::texts::rows(&args),
        Some("limits") => command::texts::limits(&args),
        Some("trial") => command::trial::trial(&args),
        Some("calls") => command::texts::calls(&args),
        Some("moves") => command::texts::moves(&args),
        Some("hunt") => command::hunt::hunt(&args),
        Some("ledger") => command::ledger::ledger(&args),
        Some("version") => say(concat!("reference ", env!("CARGO_PKG_VERSION"), "\n")),
        Some("help") | None => say(HELP),
        Some(other) => Err(format!("no command `{other}`; see reference --help")),
    }
}
