//! Every command on the samples, held to what is stored in tests/expected. NIBGRAVEL_WRITE=1 stores what is said now.
use crate::common::{repository, run, sample, Room};
use std::fs;
use std::path::Path;

/// Holds what a run printed to a stored file; it is the same on a second run.
fn holds(stored: &str, words: &[&str], status: i32) {
    let said = run(words).said(status);
    assert_eq!(said, run(words).said(status), "{words:?} is not the same twice");
    held(stored, said);
}

fn held(stored: &str, said: impl AsRef<[u8]>) {
    let said = said.as_ref();
    let file = Path::new(env!("CARGO_MANIFEST_DIR")).join("tests/expected").join(stored);
    if std::env::var_os("NIBGRAVEL_WRITE").is_some() {
        fs::create_dir_all(file.parent().expect("a folder")).and_then(|()| fs::write(&file, said)).expect("stored");
    }
    let expected = fs::read(&file).unwrap_or_else(|error| panic!("{stored}: {error}"));
    assert_eq!(String::from_utf8_lossy(said), String::from_utf8_lossy(&expected), "{stored}");
    assert!(said == expected, "{stored}");
}

/// The names of all sample sheets, without their ending, with the status of each.
const SHEETS: [(&str, i32); 14] = [
    ("box", 0),
    ("damaged", 1),
    ("frame", 0),
    ("l_shape", 0),
    ("nested_cubes", 1),
    ("nested_cubes_renumbered", 1),
    ("octahedron", 0),
    ("octahedron_mirrored", 0),
    ("octahedron_renumbered", 0),
    ("octahedron_shifted", 0),
    ("refused_apart", 1),
    ("refused_edge_meets", 1),
    ("refused_loose_vertex", 1),
    ("refused_same_place", 1),
];

fn sheet(name: &str) -> String {
    format!("samples/{name}.sheet")
}

#[test]
fn these_are_all_samples() {
    let entries = fs::read_dir(repository().join("samples")).expect("the samples");
    let names = entries.map(|entry| entry.expect("an entry").file_name().to_string_lossy().into_owned());
    assert_eq!(names.filter(|name| name.ends_with(".sheet")).count(), SHEETS.len());
}

#[test]
fn assess() {
    let files = SHEETS.map(|(name, _)| sheet(name));
    let files: Vec<&str> = files.iter().map(String::as_str).collect();
    holds("assess/samples.txt", &[&["assess"], &files[..]].concat(), 1);
    holds("assess/samples.json", &[&["assess", "--json"], &files[..]].concat(), 1);
    holds("assess/limit.txt", &["assess", "samples/octahedron.sheet", "--limit", "3"], 1);
    holds("assess/limit-2.txt", &["assess", "samples/octahedron.sheet", "--limit=1000001"], 1);
    assert_eq!(run(&["assess", "samples/box.sheet"]).said(0), "samples/box.sheet: 1.92 cubic metres\n");
}

#[test]
fn desk() {
    for (name, status) in SHEETS {
        let stored = String::from_utf8(sample(&format!("{name}.desk"))).expect("text");
        assert_eq!(run(&["desk", &sheet(name)]).said(status), stored);
    }
    holds("desk/octahedron.json", &["desk", "--json", "samples/octahedron.sheet"], 0);
}

#[test]
fn check() {
    for (name, status) in [("box_walls", 0), ("box_wall_turned", 1)] {
        let list = format!("samples/{name}.faces");
        holds(&format!("check/{name}.txt"), &["check", "samples/box.sheet", &list], status);
        holds(&format!("check/{name}.json"), &["check", "samples/box.sheet", &list, "--json"], status);
    }
    holds("check/no_list.txt", &["check", "samples/box.sheet", "samples/box.sheet"], 1);
    holds("check/no_drawing.txt", &["check", "samples/damaged.sheet", "samples/box_walls.faces"], 1);
}

#[test]
fn explain() {
    for (name, status) in SHEETS {
        holds(&format!("explain/{name}.txt"), &["explain", &sheet(name)], status);
        holds(&format!("explain/{name}.json"), &["explain", "--json", &sheet(name)], status);
    }
    holds("explain/limit.txt", &["explain", "samples/octahedron.sheet", "--limit", "3"], 1);
    holds("explain/limit-2.txt", &["explain", "samples/octahedron.sheet", "--limit", "1000001"], 1);
}

#[test]
fn only_an_assessed_drawing_shows_cubic_metres() {
    for (name, status) in SHEETS {
        let said = run(&["explain", &sheet(name)]).said(status);
        assert_eq!(said.contains("cubic metres"), status == 0, "{name}");
        assert_eq!(said.contains("(not an assessment)"), name.starts_with("nested_cubes"), "{name}");
    }
}

#[test]
fn text() {
    for (name, _) in SHEETS.into_iter().filter(|(name, _)| *name != "damaged") {
        holds(&format!("text/{name}.txt"), &["text", &sheet(name)], 0);
    }
    holds("text/octahedron.json", &["text", "--json", "samples/octahedron.sheet"], 0);
    let refused = run(&["text", "samples/damaged.sheet"]);
    assert!(refused.failed(1).starts_with("nibgravel: samples/damaged.sheet: 6 SheetLength: ask for the file again"));
}

#[test]
fn every_solid_is_a_list_that_is_accepted() {
    let room = Room::new();
    for (name, status) in SHEETS {
        let solids = if name.starts_with("nested_cubes") { 3 } else { 1 - status };
        for solid in 1..=solids {
            let (list, number) = (room.path("list"), solid.to_string());
            assert_eq!(run(&["faces", &sheet(name), &number, "-o", &list]).said(0), "");
            assert_eq!(run(&["check", &sheet(name), &list]).said(0), "accepted\n");
            held(&format!("faces/{name}_{solid}.faces"), fs::read(&list).expect("a list"));
            held(&format!("faces/{name}_{solid}.faces"), run(&["faces", &sheet(name), &number]).out);
        }
    }
    holds("faces/box.json", &["faces", "samples/box.sheet", "1", "--json", "-o", "/dev/null"], 0);
    assert_eq!(room.names(), ["list"]);
}

#[test]
fn faces_of_no_solid() {
    let of = |words: &[&str], status: i32| run(&[&["faces"], words].concat()).failed(status).to_string();
    assert_eq!(of(&["samples/box.sheet", "2"], 2), "nibgravel: samples/box.sheet: there is no solid 2; it has 1");
    assert!(of(&["samples/refused_apart.sheet", "1"], 1)
        .starts_with("nibgravel: samples/refused_apart.sheet: 14 Apart, vertex 8"));
    for number in ["0", "one", "-", "18446744073709551616"] {
        assert!(of(&["samples/box.sheet", number], 2).contains("N is the number of a solid, from 1"), "{number}");
    }
}

#[test]
fn draw() {
    let room = Room::new();
    let picture = room.path("x.svg");
    for (name, status) in SHEETS.into_iter().filter(|(name, _)| *name != "damaged") {
        holds(&format!("draw/{name}.svg"), &["draw", &sheet(name)], status);
        assert_eq!(run(&["draw", &sheet(name), "-o", &picture]).said(status), "");
        held(&format!("draw/{name}.svg"), fs::read(&picture).expect("a picture"));
        fs::remove_file(&picture).expect("it was there");
    }
    let refused = run(&["draw", "samples/damaged.sheet", "-o", &picture]);
    assert!(refused.failed(1).starts_with("nibgravel: samples/damaged.sheet: 6 SheetLength"));
    assert_eq!(room.names(), [""; 0]);
}

#[test]
fn completion_and_manual() {
    for shell in ["bash", "zsh", "fish"] {
        holds(&format!("completion/{shell}.txt"), &["completion", shell], 0);
    }
    holds("manual/nibgravel.1", &["manual"], 0);
    assert!(run(&["completion", "csh"]).failed(2).contains("SHELL is one of bash, zsh, fish"));
    assert!(run(&["manual", "--json"]).said(0).starts_with("{\"text\":\".TH NIBGRAVEL 1"));
    assert!(run(&["completion", "fish", "--json"]).said(0).starts_with("{\"shell\":\"fish\",\"text\":\"# fish"));
}

#[test]
fn book() {
    let room = Room::new();
    holds("book/stdout.txt", &["book", "samples", "-o", &room.path("")], 1);
    assert_eq!(room.names(), ["book.html", "ledger.csv"]);
    for file in ["ledger.csv", "book.html"] {
        held(&format!("book/{file}"), fs::read(room.path(file)).expect("a file of the book"));
    }
}
