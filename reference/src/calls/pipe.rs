//! Requests of the program that answers over a pipe, each with its reply; docs/PIPE.md has their form.
use super::case::{named_drawings, Case, LONGEST_SHEET};
use super::lent::{bytes, Lent};
use super::said::{refused, said, written};
use crate::check::check;
use crate::convert::convert;
use crate::desk::desk;
use crate::face_list::send_solid;
use crate::gen::extremes::sheets_at_limits;
use crate::gen::rng::Rng;
use crate::numbers::*;
use crate::reading::{reading, Reading};
use crate::sheet::{read_sheet, write_sheet};
use crate::source::Source;

/// What the program is asked for.
const WHO: u8 = 0;
const READ: u8 = 1;
const CONVERT: u8 = 2;
const CHECK: u8 = 3;
const WRITE: u8 = 4;
const SEND: u8 = 5;
const DESK: u8 = 6;
const UNKNOWN: u8 = 7;

/// The order in which the kinds take turns.
const TURNS: [u8; 8] = [READ, CONVERT, CHECK, WRITE, SEND, CONVERT, CHECK, DESK];

/// Words of what is said, and bytes of the longest text of the desk that room is left for.
const SAID: usize = 7;
const TEXT_ROOM: usize = 2_728;

/// What is read, and what must be written.
#[derive(Default)]
pub struct Pipe {
    pub input: Vec<u8>,
    pub output: Vec<u8>,
}

/// Who is there; sheets at the limits, read and converted; so many requests of all kinds; and at the end one of no kind, behind which
/// nothing is answered.
pub fn requests(seed: u64, count: u64) -> Pipe {
    let drawings = named_drawings();
    let mut pipe = Pipe::default();
    pipe.who();
    for sheet in sheets_at_limits() {
        pipe.read(&sheet);
        pipe.convert(&sheet, MOST_WORK);
    }
    for k in 0..count as usize {
        let case = Case { turn: k / TURNS.len(), drawings: &drawings };
        pipe.request(&case, &mut Rng::of_case(seed, k as u64), TURNS[k % TURNS.len()]);
    }
    pipe.ask(UNKNOWN, 0, &[], &[]);
    pipe.ask(WHO, 0, &[], &[]);
    pipe
}

impl Pipe {
    fn ask(&mut self, kind: u8, limit: u64, first: &[u8], second: &[u8]) {
        self.input.push(kind);
        self.input.extend(limit.to_be_bytes());
        for item in [first, second] {
            self.input.extend((item.len() as u16).to_be_bytes());
        }
        self.input.extend(first);
        self.input.extend(second);
    }

    /// Entries in a room that had zeros.
    fn reply<const N: usize>(&mut self, room: usize, entries: impl IntoIterator<Item = [u8; N]>) {
        let end = self.output.len() + N * room;
        self.output.extend(entries.into_iter().flatten());
        self.output.resize(end, 0);
    }

    fn words(&mut self, room: usize, words: &[u64]) {
        self.reply(room, words.iter().map(|word| word.to_be_bytes()));
    }

    fn bytes(&mut self, room: usize, bytes: &[u8]) {
        self.reply(room, bytes.iter().map(|byte| [*byte]));
    }

    fn request(&mut self, case: &Case, r: &mut Rng, kind: u8) {
        match kind {
            READ => self.read(case.lent(r, true).sheet()),
            CONVERT => {
                let lent = case.lent(r, true);
                let limit = case.limit(r, &lent);
                self.convert(lent.sheet(), limit);
            }
            CHECK => self.check(case, r),
            WRITE => self.write(case, r),
            SEND => self.send(case, r),
            _ => self.desk(case.lent(r, true).sheet()),
        }
    }

    fn who(&mut self) {
        self.ask(WHO, 0, &[], &[]);
        self.output.extend(b"nibgravel pipe 1");
    }

    fn read(&mut self, sheet: &[u8]) {
        let d = read_sheet(sheet);
        let (xyz, ends) = d.as_ref().map_or((vec![], vec![]), |d| d.lists());
        let counts = d.map_or_else(refused, |d| vec![0, 0, d.vertices.len() as u64, d.edges.len() as u64]);
        self.ask(READ, 0, sheet, &[]);
        self.words(SAID, &counts);
        self.reply(3 * VERTICES.end(), xyz.iter().map(|x| x.to_be_bytes()));
        self.bytes(2 * EDGES.end(), &bytes(&ends));
    }

    fn convert(&mut self, sheet: &[u8], limit: u64) {
        let (mut faces, mut solids) = ([0; FACE_ROOM], [0; SOLID_ROOM]);
        let answer = convert(Source::Sheet(sheet), limit, &mut faces, &mut solids);
        let shown = match reading(&answer, &solids) {
            Reading::Volume(volume) => [0, volume.to_bits()],
            Reading::NotAssessed(number) => [number as u64, 0],
        };
        self.ask(CONVERT, limit, sheet, &[]);
        self.words(SAID, &said(&answer, &solids));
        self.words(shown.len(), &shown);
        self.bytes(FACE_ROOM, &faces);
        self.words(SOLID_ROOM, &solids);
    }

    fn check(&mut self, case: &Case, r: &mut Rng) {
        let (lent, list) = case.to_check(r, true);
        let verdict = check(lent.source(), &list);
        self.ask(CHECK, 0, lent.sheet(), &list);
        self.words(SAID, &verdict.map_or_else(refused, |()| vec![]));
    }

    fn write(&mut self, case: &Case, r: &mut Rng) {
        let Lent::Lists(xyz, ends) = case.lent(r, false) else { unreachable!() };
        let mut room = [0; LONGEST_SHEET];
        let said = written(write_sheet(&xyz, &ends, &mut room));
        let words: Vec<u8> = xyz.iter().flat_map(|x| x.to_be_bytes()).collect();
        self.ask(WRITE, 0, &words, &bytes(&ends));
        self.words(SAID, &said);
        self.bytes(LONGEST_SHEET, &room);
    }

    fn send(&mut self, case: &Case, r: &mut Rng) {
        let (rows, mut solid, _) = case.to_send(r);
        solid.resize(2, 0);
        let mut room = [0; LONGEST_LIST];
        let said = written(send_solid(&rows, &solid, &mut room));
        self.ask(SEND, 0, &rows, &[solid[0].to_be_bytes(), solid[1].to_be_bytes()].concat());
        self.words(SAID, &said);
        self.bytes(LONGEST_LIST, &room);
    }

    fn desk(&mut self, sheet: &[u8]) {
        let text = desk(sheet);
        self.ask(DESK, 0, sheet, &[]);
        self.words(SAID, &[0, 0, text.len() as u64]);
        self.bytes(TEXT_ROOM, text.as_bytes());
    }
}
