//! Any numbers and bytes may be passed, from any thread.
mod common;

use common::*;
use nibgravel::{assess, assess_sheet, check, check_sheet, convert, convert_sheet, write_faces};
use nibgravel::{Drawing, Error, Number, Reading, Verdict, MOST_WORK};

fn number<T>(answer: Result<T, Error>) -> Option<Number> {
    answer.err().map(|error| error.number())
}

fn verdict(verdict: Verdict) -> Option<Number> {
    match verdict {
        Verdict::Accepted => None,
        Verdict::Refused(error) => Some(error.number()),
    }
}

#[test]
fn nothing_at_all() {
    assert_eq!(number(Drawing::read(&[])), Some(Number::SheetShort));
    assert_eq!(number(Drawing::default().to_sheet()), Some(Number::BadCount));
    assert_eq!(number(convert(&[], &[], 0)), Some(Number::BadCount));
    assert_eq!(number(convert_sheet(&[], 0)), Some(Number::SheetShort));
    assert_eq!(assess(&[], &[], 0), Reading::NotAssessed(5));
    assert_eq!(assess_sheet(&[], 0), Reading::NotAssessed(3));
    assert_eq!(number(write_faces(&[], &[], 0, 0)), Some(Number::ShellShape));
    assert_eq!(verdict(check(&[], &[], &[])), Some(Number::BadCount));
    assert_eq!(verdict(check_sheet(&[], &[])), Some(Number::SheetShort));
}

#[test]
fn far_too_much() {
    let (xyz, ends, bytes) = (vec![i64::MIN; 300_000], vec![255; 200_000], vec![0x11; 1_000_000]);
    assert_eq!(number(convert(&xyz, &ends, u64::MAX)), Some(Number::BadLimit));
    assert_eq!(number(convert(&xyz, &ends, MOST_WORK)), Some(Number::BadCount));
    assert_eq!(number(convert(&xyz[..96], &ends[..128], 0)), Some(Number::BadCoordinate));
    assert_eq!(number(convert(&[0; 96], &ends[..128], 0)), Some(Number::BadEdge));
    assert_eq!(verdict(check(&xyz, &ends, &bytes)), Some(Number::BadCount));
    assert_eq!(verdict(check(&tetrahedron().xyz, &tetrahedron().ends, &bytes)), Some(Number::ShellShape));
    assert!(Drawing::read(&bytes).is_err());
    assert_eq!(number(write_faces(&bytes, &[u64::MAX; 300], usize::MAX, usize::MAX)), Some(Number::ShellShape));
}

#[test]
fn sheets_cut_off_and_changed() {
    let sheet = octahedron().to_sheet().unwrap();
    for length in 0..sheet.len() {
        let cut = if length < 3 { Number::SheetShort } else { Number::SheetLength };
        assert_eq!(number(Drawing::read(&sheet[..length])), Some(cut));
        assert_eq!(assess_sheet(&sheet[..length], 4), Reading::NotAssessed(cut.into()));
    }
    for bit in 0..8 * sheet.len() {
        let mut sheet = sheet.clone();
        sheet[bit / 8] ^= 1 << (bit % 8);
        let (read, converted) = (Drawing::read(&sheet), convert_sheet(&sheet, 1_000));
        match read {
            Ok(drawing) => assert_eq!(drawing.convert(1_000), converted),
            Err(error) => assert_eq!(converted, Err(error)),
        }
    }
}

#[test]
fn lists_of_faces_changed() {
    let report = octahedron().convert(4).unwrap();
    let list = report.solids().next().unwrap().to_face_list().unwrap();
    assert_eq!(verdict(octahedron().check(&list)), None);
    for bit in 0..8 * list.len() {
        let mut list = list.clone();
        list[bit / 8] ^= 1 << (bit % 8);
        assert!(verdict(octahedron().check(&list)) >= Some(Number::ShellShape), "bit {bit}");
    }
}

#[test]
fn many_threads_at_once() {
    std::thread::scope(|scope| {
        for _ in 0..8 {
            scope.spawn(|| {
                for drawing in [octahedron(), nested_cubes()] {
                    assert_eq!(drawing.convert(4).unwrap().search().work, 4);
                }
            });
        }
    });
}
