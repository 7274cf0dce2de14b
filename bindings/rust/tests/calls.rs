//! Puts the calls that `reference calls` wrote to the crate, and compares what comes back. NIBGRAVEL_CALLS names the file.
//!
//! The crate itself lends the rooms, so a call that gets 1 for a short room can't be made: it is counted apart, and what was to be
//! written must be longer than that room.
mod stream;

use nibgravel::*;
use nibgravel_numbers::{FACE_ROOM, SOLID_ROOM};
use std::collections::BTreeMap;
use stream::{Room, Stream};

const NAMES: [&str; 9] = [
    "read_sheet",
    "write_sheet",
    "convert",
    "convert_sheet",
    "assess",
    "assess_sheet",
    "write_faces",
    "check",
    "check_sheet",
];

const NO_ROOM: u64 = Number::NoRoom as u64;

/// A drawing as it is lent.
enum Lent {
    Lists(Drawing),
    Sheet(Vec<u8>),
}

impl Lent {
    fn check(&self, list: &[u8]) -> Verdict {
        match self {
            Lent::Lists(drawing) => drawing.check(list),
            Lent::Sheet(sheet) => check_sheet(sheet, list),
        }
    }
}

/// What a call came to: the number that it must return and whether all is as it must be.
struct Outcome {
    number: u64,
    good: bool,
}

struct Calls<'a> {
    stream: Stream<'a>,
    sent: usize,
}

impl Calls<'_> {
    fn call(&mut self, name: &str) -> Outcome {
        let is_sheet = name.ends_with("_sheet");
        match name {
            "read_sheet" => self.read(),
            "write_sheet" => self.write(),
            "convert" | "convert_sheet" => self.convert(is_sheet),
            "assess" | "assess_sheet" => self.assess(is_sheet),
            "write_faces" => self.send(),
            _ => self.check(is_sheet),
        }
    }

    fn lent(&mut self, is_sheet: bool) -> Lent {
        if is_sheet {
            Lent::Sheet(self.stream.list())
        } else {
            Lent::Lists(Drawing { xyz: self.stream.list(), ends: self.stream.list() })
        }
    }

    fn read(&mut self) -> Outcome {
        let sheet: Vec<u8> = self.stream.list();
        let (xyz, ends) = (self.stream.room::<i64>(), self.stream.room::<u8>());
        let (said, number) = (self.stream.room(), self.stream.one());
        let good = match Drawing::read(&sheet) {
            Err(error) => xyz.got(&[]) && ends.got(&[]) && refused(&error, &said, number),
            Ok(d) if number == NO_ROOM => d.xyz.len() > xyz.length() || d.ends.len() > ends.length(),
            Ok(d) => {
                let counts = [d.xyz.len() / 3, d.ends.len() / 2].map(|n| n as u64);
                xyz.got(&d.xyz) && ends.got(&d.ends) && told(&[0, 0, counts[0], counts[1]], &said, number)
            }
        };
        Outcome { number, good }
    }

    fn write(&mut self) -> Outcome {
        let drawing = Drawing { xyz: self.stream.list(), ends: self.stream.list() };
        let (room, said, number) = (self.stream.room(), self.stream.room(), self.stream.one());
        Outcome { number, good: written(drawing.to_sheet(), &room, &said, number) }
    }

    fn send(&mut self) -> Outcome {
        let (rows, solid): (Vec<u8>, Vec<u64>) = (self.stream.list(), self.stream.list());
        let [vertices, edges]: [u64; 2] = [self.stream.one(), self.stream.one()];
        let (room, said, number) = (self.stream.room(), self.stream.room(), self.stream.one());
        Outcome {
            number,
            good: written(write_faces(&rows, &solid, vertices as usize, edges as usize), &room, &said, number),
        }
    }

    fn convert(&mut self, is_sheet: bool) -> Outcome {
        let lent = self.lent(is_sheet);
        let limit = self.stream.one();
        let (faces, solids) = (self.stream.room::<u8>(), self.stream.room::<u64>());
        let (said, number) = (self.stream.room(), self.stream.one());
        let answer = match &lent {
            Lent::Lists(drawing) => drawing.convert(limit),
            Lent::Sheet(sheet) => convert_sheet(sheet, limit),
        };
        let good = match answer {
            _ if number == NO_ROOM => faces.length() < FACE_ROOM || solids.length() < SOLID_ROOM,
            Err(error) => faces.got(&[]) && solids.got(&[]) && refused(&error, &said, number),
            Ok(report) => {
                let words: Vec<u64> = report.solids().flat_map(|solid| solid.words().to_vec()).collect();
                let right = faces.got(report.rows()) && solids.got(&words);
                right && told(&reported(&report), &said, number) && self.accepts_all(&lent, &report)
            }
        };
        Outcome { number, good }
    }

    /// Has each solid sent as a face list and checked.
    fn accepts_all(&mut self, lent: &Lent, report: &Report) -> bool {
        self.sent += report.solids().len();
        report.solids().all(|solid| solid.to_face_list().is_ok_and(|list| lent.check(&list).is_accepted()))
    }

    fn assess(&mut self, is_sheet: bool) -> Outcome {
        let lent = self.lent(is_sheet);
        let limit = self.stream.one();
        let (volume, number) = (self.stream.room::<u64>(), self.stream.one());
        let reading = match &lent {
            Lent::Lists(drawing) => drawing.assess(limit),
            Lent::Sheet(sheet) => assess_sheet(sheet, limit),
        };
        let good = match reading {
            Reading::Volume(v) => number == 0 && volume.got(&[v.to_bits()]),
            Reading::NotAssessed(why) => number == u64::from(why) && volume.got(&[]),
        };
        Outcome { number, good }
    }

    fn check(&mut self, is_sheet: bool) -> Outcome {
        let lent = self.lent(is_sheet);
        let list: Vec<u8> = self.stream.list();
        let (said, number) = (self.stream.room(), self.stream.one());
        let good = match lent.check(&list) {
            Verdict::Accepted => told(&[0, 0], &said, number),
            Verdict::Refused(error) => refused(&error, &said, number),
        };
        Outcome { number, good }
    }
}

fn told(words: &[u64], said: &Room<u64>, number: u64) -> bool {
    words[0] == number && said.got(words)
}

fn refused(error: &Error, said: &Room<u64>, number: u64) -> bool {
    let mut words = vec![u8::from(error.number()).into(), error.place() as u64];
    words.extend(error.search().iter().flat_map(|s| [s.loops as u64, s.candidates as u64]));
    error.search().is_none_or(|s| s.work == words[1]) && told(&words, said, number)
}

fn written(bytes: Result<Vec<u8>, Error>, room: &Room<u8>, said: &Room<u64>, number: u64) -> bool {
    match bytes {
        Err(error) => room.got(&[]) && refused(&error, said, number),
        Ok(bytes) if number == NO_ROOM => bytes.len() > room.length(),
        Ok(bytes) => room.got(&bytes) && told(&[0, 0, bytes.len() as u64], said, number),
    }
}

fn reported(report: &Report) -> Vec<u64> {
    let Search { loops, candidates, work } = report.search();
    let six: Vec<u64> = report.solids().map(|solid| solid.six_volumes()).collect();
    let mut words = vec![0, 0, loops as u64, candidates as u64, work, six.len() as u64];
    if six.len() == 1 {
        words.extend(six);
    }
    words
}

#[test]
fn calls_of_the_reference() {
    let Some(file) = std::env::var_os("NIBGRAVEL_CALLS") else {
        eprintln!("skipped: NIBGRAVEL_CALLS names no file that `reference calls` wrote");
        return;
    };
    let bytes = std::fs::read(file).expect("the file that NIBGRAVEL_CALLS names");
    let mut calls = Calls { stream: Stream(&bytes), sent: 0 };
    let (mut count, mut differences, mut met) = (0, 0, BTreeMap::new());
    while !calls.stream.0.is_empty() {
        let function = usize::from(calls.stream.one::<u8>());
        let outcome = calls.call(NAMES[function]);
        if !outcome.good {
            differences += 1;
            println!("call {count} of {} differs", NAMES[function]);
        }
        met.entry(function).or_insert_with(BTreeMap::new).entry(outcome.number).and_modify(|n| *n += 1).or_insert(1);
        count += 1;
    }
    for (function, numbers) in &met {
        let numbers: Vec<String> = numbers.iter().map(|(number, times)| format!("{number}:{times}")).collect();
        println!("{} {}", NAMES[*function], numbers.join(" "));
    }
    println!("calls {count} differences {differences} solids sent {}", calls.sent);
    assert!(count > 0 && differences == 0);
}
