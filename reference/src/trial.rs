//! What the trial programs read, and what they must print of it by the clear version.
use crate::calls::sheets_with_lists;
use crate::check::verdict;
use crate::clash::clash;
use crate::convert::{convert, Answer};
use crate::cover::{covers, find_candidates};
use crate::desk::desk;
use crate::drawing::{Drawing, Loop};
use crate::face_list::pack_faces;
use crate::fast;
use crate::gen::extreme_lists::extreme_lists;
use crate::gen::extremes::{extreme_sheets, sheets_at_limits};
use crate::gen::limits::{all_but_three, faces_with, flat_128, flat_129, nine_solids};
use crate::gen::lists::{any_list, from_any_corners, sent_solids};
use crate::gen::named::named;
use crate::gen::rng::Rng;
use crate::gen::scenes::{ruled_drawing, two_pyramids};
use crate::gen::sheets::{any_sheet, changed, counted_drawing};
use crate::loops::{find_loops, loop_edges};
use crate::numbers::*;
use crate::rows::{aimed, sheet_to_read, Order};
use crate::rules::rules_11_to_14;
use crate::sheet::{pack_sheet, read_sheet, sheet_length, write_sheet};
use crate::source::Source;
use crate::vector::{cross, dot, sub};

/// Standard input and standard output.
#[derive(Default)]
pub struct Trial {
    pub input: Vec<u8>,
    pub output: String,
}

impl Trial {
    /// Appends bytes behind their length in two bytes, high byte first.
    fn put(&mut self, bytes: &[u8]) {
        self.input.extend((bytes.len() as u16).to_be_bytes());
        self.input.extend(bytes);
    }

    /// Appends a sheet behind a work limit.
    fn walked(&mut self, sheet: &[u8], limit: u64) {
        self.input.extend(&(limit as u32).to_be_bytes()[1..]);
        self.put(sheet);
        self.output += &walked(sheet, limit);
    }
}

fn refused(refusal: Refusal) -> String {
    format!("refused {} {}\n", refusal.number, refusal.place)
}

/// Sheets: the extreme ones, and generated ones of every sort.
pub fn sheets(order: &Order, count: u64) -> Trial {
    let mut trial = Trial::default();
    let generated = (0..count).map(|k| sheet_to_read(&mut Rng::of_case(order.seed, k), order, k as usize));
    for sheet in extreme_sheets().into_iter().chain(generated) {
        trial.put(&sheet);
        trial.output += &read_sheet(&sheet).map_or_else(refused, |d| written_back(&d));
    }
    trial
}

/// The drawing's counts, and its sheet in hexadecimal digits.
fn written_back(d: &Drawing) -> String {
    let (xyz, ends) = d.lists();
    let mut room = vec![0; sheet_length(d.vertices.len(), d.edges.len())];
    let digits = match write_sheet(&xyz, &ends, &mut room) {
        Ok(_) => room.iter().map(|byte| format!("{byte:02x}")).collect::<String>() + "\n",
        Err(refusal) => refused(refusal),
    };
    format!("drawing {} {}\n{digits}", d.vertices.len(), d.edges.len())
}

/// Sheets: drawings of two polygons with a point over each, whose faces clash in many ways, and drawings for rules 11 to 14.
pub fn geometry(seed: u64, count: u64) -> Trial {
    let mut trial = Trial::default();
    for k in 0..count {
        let mut r = Rng::of_case(seed, k);
        for d in [two_pyramids(&mut r), ruled_drawing(&mut r, k as usize)] {
            trial.put(&pack_sheet(&d));
            trial.output += &rules_11_to_14(&d).map_or_else(refused, |()| covers_line(&d) + &clashes_line(&d));
        }
    }
    trial
}

/// A digit for each loop: 1 where it covers another.
fn covers_line(d: &Drawing) -> String {
    find_loops(d, MOST_LOOPS).map_or_else(refused, |loops| {
        let digit = |a: &Loop| (loops.iter().any(|b| covers(d, a, b)) as u8).to_string();
        format!("covers {}\n", loops.iter().map(digit).collect::<String>())
    })
}

/// A word for each candidate: those that it clashes with.
fn clashes_line(d: &Drawing) -> String {
    find_loops(d, MOST_LOOPS).and_then(|loops| find_candidates(d, &loops, MOST_CANDIDATES)).map_or_else(
        refused,
        |candidates| {
            let faces: Vec<_> = candidates.iter().map(|l| d.points(l)).collect();
            let others = |k: usize| (0..faces.len()).filter(move |j| *j != k);
            let those = |k: usize| word(others(k).filter(|j| clash(&faces[k], &faces[*j]).is_some()));
            format!("clashes{}\n", (0..faces.len()).map(|k| format!(" {}", those(k))).collect::<String>())
        },
    )
}

/// Sheets of the named drawings, of those with 128 and 129 loops and with 64 and 65 candidates, and of generated ones.
pub fn loops(seed: u64, count: u64) -> Trial {
    let mut trial = Trial::default();
    let limits = [flat_128(), flat_129(), all_but_three(false), all_but_three(true)];
    let generated = (0..count).map(|k| {
        let mut r = Rng::of_case(seed, k);
        let d = counted_drawing(&mut r, *VERTICES.end());
        changed(&mut r, d)
    });
    for d in named().into_iter().map(|(_, d)| d).chain(limits).chain(generated) {
        let sheet = pack_sheet(&d);
        trial.put(&sheet);
        trial.output += &read_sheet(&sheet).map_or_else(refused, |d| loops_and_candidates(&d));
    }
    trial
}

/// How many loops and candidates there are, each with a checksum of their rows and words.
fn loops_and_candidates(d: &Drawing) -> String {
    let loops = match rules_11_to_14(d).and_then(|()| find_loops(d, MOST_LOOPS)) {
        Ok(loops) => loops,
        Err(refusal) => return refused(refusal),
    };
    let planes = loops.iter().flat_map(|l| [row_and_words(d, l), vec![word(in_plane_of(d, l))]].concat());
    let found = format!("loops {} {} ", loops.len(), checksum(planes));
    found
        + &find_candidates(d, &loops, MOST_CANDIDATES).map_or_else(refused, |candidates| {
            let words = candidates.iter().flat_map(|l| row_and_words(d, l));
            format!("candidates {} {}\n", candidates.len(), checksum(words))
        })
}

/// The row's bytes, and the words of its corners and of its edges.
fn row_and_words(d: &Drawing, l: &Loop) -> Vec<u64> {
    let fill = vec![FACE_FILL as usize; *CORNERS.end() - l.len()];
    let row = [&[l.len()], &l[..], &fill].concat().into_iter().map(|n| n as u64);
    row.chain([word(l.iter().copied()), word(loop_edges(d, l))]).collect()
}

/// Of numbers in order.
fn checksum(numbers: impl IntoIterator<Item = u64>) -> u64 {
    const PRIME: u64 = 4_294_967_291;
    numbers.into_iter().fold(0, |sum, n| (31 * sum + n % PRIME) % PRIME)
}

/// Sheets, each behind a work limit in three bytes, high byte first: the named drawings, and generated ones.
pub fn walks(seed: u64, count: u64) -> Trial {
    let mut trial = Trial::default();
    for (_, d) in named() {
        let sheet = pack_sheet(&d);
        let work = work_of(&sheet);
        trial.walked(&sheet, MOST_WORK);
        if work > 0 {
            trial.walked(&sheet, work);
            trial.walked(&sheet, work - 1);
        }
    }
    for k in 0..count {
        let mut r = Rng::of_case(seed, k);
        let any = |r: &mut Rng| {
            let d = counted_drawing(r, *VERTICES.end());
            pack_sheet(&changed(r, d))
        };
        // Two in three make assumptions, and most limits are about as high as the work.
        let sheet = aimed(&mut r, any, |sheet| k % 3 == 0 || work_of(sheet) > 0);
        let work = work_of(&sheet);
        let below = r.below(work as usize + 1) as u64;
        let limits = [MOST_WORK, work, work.saturating_sub(1), k / 6 % 2, below, MOST_WORK];
        trial.walked(&sheet, limits[k as usize % limits.len()]);
    }
    trial
}

/// Sheets at the desk: those at the limits, the named ones, and generated ones of every sort.
pub fn desks(seed: u64, count: u64) -> Trial {
    let mut trial = Trial::default();
    let named = named().into_iter().map(|(_, d)| pack_sheet(&d));
    let generated = (0..count).map(|k| any_sheet(&mut Rng::of_case(seed, k)));
    for sheet in sheets_at_limits().into_iter().chain(named).chain(generated) {
        trial.put(&sheet);
        trial.output += &desk(&sheet);
    }
    trial
}

/// Sheets, each with a face list: those at the limits, extreme lists, solids, and generated ones of every sort.
pub fn checks(seed: u64, count: u64) -> Trial {
    let mut trial = Trial::default();
    let at_limits = sheets_at_limits().into_iter().map(|sheet| (sheet, faces_with(|_| {})));
    let extreme = extreme_lists().into_iter().map(|(d, list)| (pack_sheet(&d), list));
    let generated = sheets_with_lists(seed, count);
    for (sheet, list) in at_limits.chain(extreme).chain(solids(seed)).chain(generated) {
        trial.put(&sheet);
        trial.put(&list);
        trial.output += &verdict(&sheet, &list);
    }
    trial
}

/// Each solid of reports, those of the named drawings and some of two solids, as it is sent and in any order from any corners; and some of
/// nine, of which there is no report.
fn solids(seed: u64) -> Vec<(Vec<u8>, Vec<u8>)> {
    let mut r = Rng::new(seed);
    let sent = |sheet: &[u8]| sent_solids(Source::Sheet(sheet), MOST_WORK);
    let named = named().into_iter().map(|(_, d)| pack_sheet(&d));
    let of_two: Vec<Vec<u8>> = (0..4).map(|_| aimed(&mut r, any_sheet, |sheet| sent(sheet).len() == 2)).collect();
    let mut pairs = vec![];
    for sheet in named.chain(of_two) {
        for mut faces in sent(&sheet) {
            pairs.push((sheet.clone(), pack_faces(&faces)));
            from_any_corners(&mut r, &mut faces);
            r.shuffle(&mut faces);
            pairs.push((sheet.clone(), pack_faces(&faces)));
        }
    }
    let many = pack_sheet(&nine_solids());
    pairs.extend((0..4).map(|_| {
        let source = Source::Sheet(&many);
        (many.clone(), aimed(&mut r, |r| any_list(r, source), |list| fast::check(source, list).is_ok()))
    }));
    pairs
}

/// The assumptions of a whole walk; none where the drawing is refused.
fn work_of(sheet: &[u8]) -> u64 {
    match fast::convert(Source::Sheet(sheet), MOST_WORK, &mut [0; FACE_ROOM], &mut [0; SOLID_ROOM]) {
        Answer::Refused(_) => 0,
        Answer::Ended { work, .. } | Answer::Report { work, .. } => work as u64,
    }
}

/// What refuses the sheet, or how many loops, candidates and assumptions there are, and the solids' words or why there
/// are none.
fn walked(sheet: &[u8], limit: u64) -> String {
    let mut room = [0; SOLID_ROOM];
    match convert(Source::Sheet(sheet), limit, &mut [0; FACE_ROOM], &mut room) {
        Answer::Refused(refusal) => refused(refusal),
        Answer::Ended { number, loops, candidates, work } => {
            let why = match number {
                NO_SOLID => "no solid",
                MANY => "many",
                _ => "too long",
            };
            format!("loops {loops} candidates {candidates} work {work} {why}\n")
        }
        Answer::Report { loops, candidates, work, solids } => {
            let words = room.chunks(3).take(solids as usize).map(|w| format!(" solid {} {} {}", w[0], w[1], w[2]));
            format!("loops {loops} candidates {candidates} work {work}{}\n", words.collect::<String>())
        }
    }
}

fn word(members: impl IntoIterator<Item = usize>) -> u64 {
    members.into_iter().map(|k| 1 << k).sum()
}

/// The vertices in the loop's plane, through its first three corners that aren't in line.
fn in_plane_of(d: &Drawing, l: &Loop) -> Vec<usize> {
    let from = |v: usize| sub(d.point(v), d.point(l[0]));
    let across = l[2..].iter().map(|v| cross(from(l[1]), from(*v))).find(|n| *n != [0; 3]);
    let across = across.expect("after rule 13 no loop is on one line");
    (0..d.vertices.len()).filter(|v| dot(across, from(*v)) == 0).collect()
}
