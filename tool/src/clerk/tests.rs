//! Replies that no right program gives: none of them becomes an answer.
use super::reply::{checked, converted, read, written, CHECKED, CONVERTED, READ, SHEET};
use super::{fits, rows, Conversion, Drawing, Reading, Refusal};
use nibgravel_numbers::{Number, ENDS, FACE_ROOM, FILL, ROW};

/// Puts a word at a place counted in words.
fn put(bytes: &mut [u8], k: usize, word: u64) {
    bytes[8 * k..8 * k + 8].copy_from_slice(&word.to_be_bytes());
}

const FACES: usize = 9 * 8;
const SOLIDS: usize = (FACES + FACE_ROOM) / 8;

/// A tetrahedron's: four loops and candidates, no work, one solid of six volumes 216.
fn report() -> [u8; CONVERTED] {
    let mut bytes = [0; CONVERTED];
    for (k, word) in [0, 0, 4, 4, 0, 1, 216, 0, (216.0_f64 / 6_000_000.0).to_bits()].into_iter().enumerate() {
        put(&mut bytes, k, word);
    }
    for (k, corners) in [[0, 1, 2], [0, 1, 3], [0, 2, 3], [1, 2, 3]].into_iter().enumerate() {
        let row = &mut bytes[FACES + ROW * k..][..ROW];
        row.fill(FILL);
        row[0] = 3;
        row[1..4].copy_from_slice(&corners);
    }
    for (k, word) in [0b1111, 0b0101, 216].into_iter().enumerate() {
        put(&mut bytes, SOLIDS + k, word);
    }
    bytes
}

fn changed(k: usize, word: u64) -> [u8; CONVERTED] {
    let mut bytes = report();
    put(&mut bytes, k, word);
    bytes
}

#[test]
fn a_report_is_believed() {
    let (conversion, reading) = converted(&report()).expect("a report");
    let Conversion::Report { candidates, solids, .. } = conversion else { panic!("no report") };
    assert_eq!(reading, Reading::Volume(0.000036));
    assert_eq!((solids[0].six, solids[0].faces.len(), &solids[0].faces[2].corners[..]), (216, 4, &[0, 3, 2][..]));
    assert_eq!(rows(&candidates), report()[FACES..FACES + 4 * ROW]);
}

#[test]
fn words_that_do_not_fit_are_an_error() {
    // number, loops, candidates, work, solids, six volumes, reading
    for (k, word) in [(0, 20), (0, 28), (0, 30), (0, 256 + 13), (0, u64::MAX), (2, 129), (2, 3), (3, 65), (3, 5)] {
        assert!(converted(&changed(k, word)).is_err(), "{word} at {k}");
    }
    for (k, word) in [(4, 1_000_001), (5, 0), (5, 2), (5, 9), (5, u64::MAX), (6, 217), (7, 13), (7, 30)] {
        assert!(converted(&changed(k, word)).is_err(), "{word} at {k}");
    }
    for volume in [0.0, -1.0, f64::NAN, f64::INFINITY] {
        assert!(converted(&changed(8, volume.to_bits())).is_err(), "{volume}");
    }
}

#[test]
fn solids_that_are_none_are_an_error() {
    for (k, word) in [(0, 0), (0, 0b0111), (0, 0b11111), (0, u64::MAX), (1, 0b10000), (2, 0), (2, 217)] {
        assert!(converted(&changed(SOLIDS + k, word)).is_err(), "{word} at {k}");
    }
}

#[test]
fn candidates_that_are_none_are_an_error() {
    for (at, byte) in [(0, 0), (0, 2), (0, 4), (0, 13), (0, 255), (1, 32), (3, 255), (4, 0), (12, 7)] {
        let mut bytes = report();
        bytes[FACES + at] = byte;
        assert!(converted(&bytes).is_err(), "{byte} at {at}");
    }
}

#[test]
fn a_refusal_has_a_place_and_a_reading_of_its_own() {
    let said = |number: u64, place: u64, shown: u64| {
        let mut bytes = [0; CONVERTED];
        put(&mut bytes, 0, number);
        put(&mut bytes, 1, place);
        put(&mut bytes, 7, shown);
        converted(&bytes)
    };
    let refused = Conversion::Refused(Refusal { number: Number::EdgeMeets, place: 4 });
    assert_eq!(said(13, 4, 13), Ok((refused, Reading::NotAssessed(Number::EdgeMeets))));
    for (number, place, shown) in
        [(13, 64, 13), (13, 4, 0), (13, 4, 12), (12, 32, 12), (8, 96, 8), (3, 1, 3), (5, 2, 5)]
    {
        assert!(said(number, place, shown).is_err(), "{number} {place} {shown}");
    }
    assert!(said(17, 1_000_001, 17).is_err());
}

/// Four vertices and six edges.
fn drawing() -> [u8; READ] {
    let mut bytes = [0; READ];
    put(&mut bytes, 2, 4);
    put(&mut bytes, 3, 6);
    bytes[READ - ENDS..][..12].copy_from_slice(&[0, 1, 0, 2, 0, 3, 1, 2, 1, 3, 2, 3]);
    bytes
}

#[test]
fn a_drawing_has_counts_coordinates_and_ends_that_fit() {
    assert!(matches!(read(&drawing()), Ok(Ok(Drawing { vertices, edges })) if vertices.len() == 4 && edges.len() == 6));
    for (k, word) in [(0, 2), (0, 11), (2, 3), (2, 33), (3, 65), (3, 7), (7, 1_001), (7, u64::MAX - 1_000)] {
        let mut bytes = drawing();
        put(&mut bytes, k, word);
        assert!(read(&bytes).is_err(), "{word} at {k}");
    }
    let mut bytes = drawing();
    bytes[READ - ENDS + 1] = 4;
    assert!(read(&bytes).is_err());
}

#[test]
fn other_replies_have_their_own_numbers_and_lengths() {
    let said = |number: u64| {
        let mut bytes = [0; CHECKED];
        put(&mut bytes, 0, number);
        checked(&bytes)
    };
    assert_eq!(said(0), Ok(Ok(())));
    assert_eq!(said(24), Ok(Err(Refusal { number: Number::Direction, place: 0 })));
    assert!(said(2).is_err() && said(17).is_err() && said(30).is_err());
    let long = |length: u64| {
        let mut bytes = [0; SHEET];
        put(&mut bytes, 2, length);
        written(&bytes, |_| false)
    };
    assert!(long(215).is_ok() && long(216).is_err() && long(0).is_err());
}

#[test]
fn a_sheet_read_and_converted_is_one_sheet() {
    let (drawing, refusal) = (read(&drawing()).expect("a reply"), Refusal { number: Number::SheetLength, place: 0 });
    let (report, _) = converted(&report()).expect("a reply");
    assert!(fits(&drawing, &report).is_ok());
    assert!(fits(&Err(refusal), &Conversion::Refused(refusal)).is_ok());
    assert!(fits(&Err(refusal), &Conversion::Refused(Refusal { number: Number::BadLimit, place: 0 })).is_ok());
    assert!(fits(&Err(refusal), &report).is_err());
    assert!(fits(&drawing, &Conversion::Refused(refusal)).is_err());
}
