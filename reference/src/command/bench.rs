//! `bench`: times of both versions.
use super::args::{say, Args};
use nibgravel_reference::convert::{convert, Answer};
use nibgravel_reference::desk::Converter;
use nibgravel_reference::fast;
use nibgravel_reference::gen::growing::growing;
use nibgravel_reference::gen::named::named;
use nibgravel_reference::gen::rng::Rng;
use nibgravel_reference::gen::sheets::{changed, counted_drawing};
use nibgravel_reference::numbers::*;
use nibgravel_reference::sheet::pack_sheet;
use nibgravel_reference::source::Source;
use std::hint::black_box;
use std::time::Instant;

/// Drawings of more work than this are left out of the 1,000, as the clear version takes seconds for one.
const MOST_BENCH_WORK: u32 = 1_000;

pub fn bench(args: &Args) -> Result<(), String> {
    args.allow(1, &[])?;
    say(&format!("{:30} {:>12} {:>12} {:>9}  answer\n", "microseconds", "fast", "clear", "work"))?;
    for (name, d) in named().into_iter().map(|(name, d)| (name.to_string(), d)).chain(growing()) {
        let sheet = pack_sheet(&d);
        let ((fast_time, answer), (clear_time, same)) = (best(fast::convert, &sheet), best(convert, &sheet));
        if answer != same {
            return Err(format!("the versions differ on {name}: {answer:?}, {same:?}"));
        }
        say(&format!("{name:30} {fast_time:12.2} {clear_time:12.1} {:>9}  {}\n", work(&answer), short(&answer)))?;
    }
    let sheets = generated(77);
    let all = |converter: Converter| {
        let started = Instant::now();
        sheets.iter().for_each(|sheet| {
            black_box(once(converter, sheet));
        });
        started.elapsed().as_secs_f64() * 1e6 / sheets.len() as f64
    };
    let least = (0..5).map(|_| all(fast::convert)).fold(f64::MAX, f64::min);
    say(&format!("{:30} {least:12.2} {:12.1}            each\n", "1000 generated drawings", all(convert)))
}

fn once(converter: Converter, sheet: &[u8]) -> Answer {
    converter(Source::Sheet(black_box(sheet)), MOST_WORK, &mut [0; FACE_ROOM], &mut [0; SOLID_ROOM])
}

/// The least time of some runs, in microseconds, after one that isn't counted.
fn best(converter: Converter, sheet: &[u8]) -> (f64, Answer) {
    let started = Instant::now();
    let answer = once(converter, sheet);
    let first = started.elapsed().as_secs_f64();
    let (rounds, runs) = if first > 0.1 { (0, 1) } else { (5, (0.01 / first) as u32 + 1) };
    let mut least = first;
    for _ in 0..rounds {
        let started = Instant::now();
        for _ in 0..runs {
            black_box(once(converter, sheet));
        }
        least = least.min(started.elapsed().as_secs_f64() / runs as f64);
    }
    (least * 1e6, answer)
}

fn work(answer: &Answer) -> u32 {
    match answer {
        Answer::Report { work, .. } | Answer::Ended { work, .. } => *work,
        Answer::Refused(_) => 0,
    }
}

fn short(answer: &Answer) -> String {
    match answer {
        Answer::Refused(refusal) => format!("refused {} {}", refusal.number, refusal.place),
        Answer::Ended { number, loops, candidates, .. } => format!("{number}, loops {loops}, candidates {candidates}"),
        Answer::Report { loops, candidates, solids, .. } => {
            format!("solids {solids}, loops {loops}, candidates {candidates}")
        }
    }
}

/// 1,000 sheets with good counts, as the families give them.
fn generated(seed: u64) -> Vec<Vec<u8>> {
    let mut r = Rng::new(seed);
    let mut sheets = vec![];
    while sheets.len() < 1_000 {
        let d = counted_drawing(&mut r, *VERTICES.end());
        let sheet = pack_sheet(&changed(&mut r, d));
        if work(&once(fast::convert, &sheet)) <= MOST_BENCH_WORK {
            sheets.push(sheet);
        }
    }
    sheets
}
