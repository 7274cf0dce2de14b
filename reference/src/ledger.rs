//! The ledger of a folder: a line of CSV for each of its sheets, as the command for people has to write it.
use crate::convert::Answer;
use crate::desk::Converter;
use crate::numbers::*;
use crate::reading::{reading, Reading};
use crate::source::Source;
use std::fs;
use std::io;
use std::path::Path;

/// All lines, by name of the file. Folders within are not entered, and names that begin with a dot are passed over.
pub fn ledger(converter: Converter, folder: &Path) -> io::Result<String> {
    let mut names = vec![];
    for entry in fs::read_dir(folder)? {
        names.push(entry?.file_name());
    }
    names.sort();
    let mut text = "file,answer,place,reading,solids,six volumes,work\n".to_string();
    for name in names {
        let shown = name.to_string_lossy();
        if shown.ends_with(".sheet") && !shown.starts_with('.') {
            let fields = match fs::read(folder.join(&name)) {
                Ok(sheet) => answered(converter, &sheet),
                Err(_) => "unreadable,,,,,".to_string(),
            };
            text += &format!("{},{fields}\n", field(&shown));
        }
    }
    Ok(text)
}

/// The six fields behind the name. Only a volume that was assessed stands there, and six volumes beside it.
fn answered(converter: Converter, sheet: &[u8]) -> String {
    let mut solid_room = [0; SOLID_ROOM];
    let answer = converter(Source::Sheet(sheet), MOST_WORK, &mut [0; FACE_ROOM], &mut solid_room);
    match (reading(&answer, &solid_room), answer) {
        (_, Answer::Refused(Refusal { number, place })) => format!("{number},{place},,,,"),
        (_, Answer::Ended { number, work, .. }) => format!("{number},{work},,,,{work}"),
        (Reading::Volume(volume), Answer::Report { work, .. }) => format!("0,,{volume},1,{},{work}", solid_room[2]),
        (Reading::NotAssessed(number), Answer::Report { solids, work, .. }) => format!("{number},,,{solids},,{work}"),
    }
}

/// A name as a field: no formula for a spreadsheet, and in quotes where it has to be.
fn field(name: &str) -> String {
    let formula = matches!(name.chars().next(), Some('=' | '+' | '-' | '@' | '\t' | '\r'));
    let name = if formula { format!("./{name}") } else { name.to_string() };
    let special = name.chars().any(|c| matches!(c, ',' | '"' | '\n' | '\r'));
    if special {
        format!("\"{}\"", name.replace('"', "\"\""))
    } else {
        name
    }
}
