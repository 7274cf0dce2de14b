//! The samples: each sheet has its desk text beside it, and each face list, which is for the box, what the check says.
use crate::common::checked;
use nibgravel_reference::desk::desk;
use nibgravel_reference::source::Source;
use std::fs;
use std::path::{Path, PathBuf};

fn folder() -> PathBuf {
    Path::new(env!("CARGO_MANIFEST_DIR")).join("../samples")
}

/// The samples of a kind, each with the text that stands beside it.
fn samples(kind: &str, text: &str) -> Vec<(Vec<u8>, String)> {
    let paths = fs::read_dir(folder()).expect("the samples are there").map(|entry| entry.expect("an entry").path());
    let all = paths.filter(|path| path.extension().is_some_and(|e| e == kind));
    all.map(|path| {
        let text = fs::read_to_string(path.with_extension(text)).expect("its text stands beside it");
        (fs::read(path).expect("a sample"), text)
    })
    .collect()
}

#[test]
fn each_sheet_has_its_desk_text() {
    let sheets = samples("sheet", "desk");
    assert_eq!(sheets.len(), 14);
    sheets.iter().for_each(|(sheet, text)| assert_eq!(desk(sheet), *text));
}

#[test]
fn each_face_list_has_its_verdict() {
    let sheet = fs::read(folder().join("box.sheet")).expect("the box");
    let lists = samples("faces", "check");
    assert_eq!(lists.len(), 2);
    for (list, text) in lists {
        let said = match checked(Source::Sheet(&sheet), &list) {
            (0, _) => "accepted\n".to_string(),
            (number, place) => format!("refused {number} {place}\n"),
        };
        assert_eq!(said, text);
    }
}
