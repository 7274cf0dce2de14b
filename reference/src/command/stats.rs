//! `stats`: both versions on generated sheets and face lists, and how often each answer comes.
use super::args::{say, Args};
use nibgravel_reference::check::check;
use nibgravel_reference::convert::{convert, Answer};
use nibgravel_reference::desk::Converter;
use nibgravel_reference::fast;
use nibgravel_reference::gen::lists::any_list;
use nibgravel_reference::gen::rng::Rng;
use nibgravel_reference::gen::sheets::any_sheet;
use nibgravel_reference::numbers::*;
use nibgravel_reference::source::Source;
use std::collections::BTreeMap;

#[derive(Default)]
struct Counts {
    differ: u64,
    answers: BTreeMap<u32, u64>,
    solids: BTreeMap<u32, u64>,
    /// By the number of decimal digits; none is work 0.
    work_digits: BTreeMap<usize, u64>,
    checks: BTreeMap<u32, u64>,
}

pub fn stats(args: &Args) -> Result<(), String> {
    args.allow(1, &["count", "seed", "limit"])?;
    let (count, seed, limit) = (args.number("count", 10_000)?, args.number("seed", 1)?, args.number("limit", 20_000)?);
    let mut counts = Counts::default();
    for case in 0..count {
        let mut r = Rng::of_case(seed, case);
        let sheet = any_sheet(&mut r);
        let list = any_list(&mut r, Source::Sheet(&sheet));
        if !counts.both_agree(&sheet, &list, limit) {
            say(&format!("case {case} of seed {seed} differs\n"))?;
        }
    }
    say(&format!("sheets {count}, seed {seed}, limit {limit}\n"))?;
    say(&format!("conversions by number, 0 a report: {:?}\n", counts.answers))?;
    say(&format!("reports by solids: {:?}\n", counts.solids))?;
    say(&format!("walks by digits of their work: {:?}\n", counts.work_digits))?;
    say(&format!("checks by number, 0 accepted: {:?}\n", counts.checks))?;
    say(&format!("clear and fast differ: {}\n", counts.differ))?;
    if counts.differ == 0 {
        Ok(())
    } else {
        Err("the versions differ".to_string())
    }
}

impl Counts {
    fn both_agree(&mut self, sheet: &[u8], list: &[u8], limit: u64) -> bool {
        let source = Source::Sheet(sheet);
        let run = |converter: Converter| {
            let (mut face_room, mut solid_room) = ([0x5a; FACE_ROOM], [0x5a; SOLID_ROOM]);
            let answer = converter(source, limit, &mut face_room, &mut solid_room);
            (answer, face_room, solid_room)
        };
        let (clear, fast) = (run(convert), run(fast::convert));
        let (checked, fast_checked) = (check(source, list), fast::check(source, list));
        *self.answers.entry(clear.0.number()).or_default() += 1;
        *self.checks.entry(checked.map_or_else(|refusal| refusal.number, |()| 0)).or_default() += 1;
        if let Answer::Report { solids, .. } = clear.0 {
            *self.solids.entry(solids).or_default() += 1;
        }
        if let Answer::Report { work, .. } | Answer::Ended { work, .. } = clear.0 {
            let digits = if work == 0 { 0 } else { work.to_string().len() };
            *self.work_digits.entry(digits).or_default() += 1;
        }
        let agree = clear == fast && checked == fast_checked;
        self.differ += !agree as u64;
        agree
    }
}
