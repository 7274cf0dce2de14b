//! Folders of sheets, with names and files that are not as they should be.
use crate::common::{run, sample, Room};
use std::ffi::OsStr;
use std::fs;
use std::os::unix::ffi::OsStrExt;
use std::path::Path;
use std::process::Command;

const HEADER: &str = "file,answer,place,reading,solids,six volumes,work\n";

fn ledger(room: &Room) -> String {
    fs::read_to_string(room.path("ledger.csv")).expect("a ledger")
}

#[test]
fn names_and_files_of_all_sorts_get_a_row() {
    let room = Room::new();
    for name in ["b.sheet", "=1+1.sheet", "a,\"b\"\nc.sheet", ".hidden.sheet", "other.txt", "sheet"] {
        room.file(name, &sample("box.sheet"));
    }
    fs::create_dir(room.path("folder.sheet")).expect("a folder");
    fs::write(room.path("folder.sheet/within.sheet"), b"").expect("a file");
    std::os::unix::fs::symlink("/no/such/file", room.path("gone.sheet")).expect("a link");
    assert!(Command::new("mkfifo").arg(room.path("pipe.sheet")).status().expect("mkfifo").success());
    fs::write(Path::new(&room.path("")).join(OsStr::from_bytes(b"\xff.sheet")), b"").expect("a file");
    let said = run(&["book", &room.path("")]).said(2);
    assert_eq!(said, "       7 sheets\n       3 assessed\n       1 not assessed 3 SheetShort\n       3 unreadable\n");
    let expected = "./=1+1.sheet,0,,1.92,1,11520000,0\n\"a,\"\"b\"\"\nc.sheet\",0,,1.92,1,11520000,0\n\
                    b.sheet,0,,1.92,1,11520000,0\nfolder.sheet,unreadable,,,,,\ngone.sheet,unreadable,,,,,\n\
                    pipe.sheet,unreadable,,,,,\n\u{fffd}.sheet,3,0,,,,\n";
    assert_eq!(ledger(&room), format!("{HEADER}{expected}"));
}

#[test]
fn it_is_the_same_on_every_run_and_leaves_nothing_beside() {
    let room = Room::new();
    let once = || {
        run(&["book", "samples", "-o", &room.path("")]).said(1);
        (ledger(&room), fs::read(room.path("book.html")).expect("a page"))
    };
    let first = once();
    assert!(first == once());
    assert_eq!(room.names(), ["book.html", "ledger.csv"]);
}

#[test]
fn more_sheets_than_are_asked_ahead_stay_in_order() {
    let room = Room::new();
    for k in 0..200 {
        room.file(&format!("{k:03}.sheet"), &if k % 3 == 0 { sample("box.sheet") } else { sample("octahedron.sheet") });
    }
    assert_eq!(run(&["book", &room.path("")]).said(0), "     200 sheets\n     200 assessed\n");
    let line = |k: usize| match k % 3 {
        0 => format!("{k:03}.sheet,0,,1.92,1,11520000,0\n"),
        _ => format!("{k:03}.sheet,0,,0.0013333333333333333,1,8000,4\n"),
    };
    assert_eq!(ledger(&room), HEADER.to_string() + &(0..200).map(line).collect::<String>());
}

#[test]
fn an_empty_folder_has_an_empty_ledger() {
    let room = Room::new();
    assert_eq!(run(&["book", &room.path("")]).said(0), "       0 sheets\n");
    assert_eq!(ledger(&room), HEADER);
}

#[test]
fn a_limit_and_json() {
    let room = Room::new();
    room.file("a.sheet", &sample("octahedron.sheet"));
    let said = run(&["book", &room.path(""), "--limit", "3", "--json"]).said(1);
    assert!(
        said.ends_with("\"sheets\":1,\"answers\":[{\"answer\":\"not assessed 19 TooLong\",\"count\":1}]}\n"),
        "{said}"
    );
    assert_eq!(ledger(&room), format!("{HEADER}a.sheet,19,3,,,,3\n"));
}

#[test]
fn a_full_disk_leaves_no_half_of_a_ledger() {
    let room = Room::new();
    room.file("a.sheet", &sample("box.sheet"));
    std::os::unix::fs::symlink("/dev/full", room.path("book.html")).expect("a link");
    let line = run(&["book", &room.path("")]).failed(2).to_string();
    assert_eq!(line, format!("nibgravel: {}: there is no space left", room.path("")));
    assert_eq!(room.names(), ["a.sheet", "book.html"]);
}
