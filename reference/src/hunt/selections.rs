//! The selections of a drawing that have (i) and (v), by document 01 or with one of its rules left out.
use crate::clash::{rule_a, rule_b, rule_c};
use crate::drawing::{Drawing, Loop};
use crate::fast::{self, End, Members, Passed, Tables, Walk};
use crate::numbers::*;
use crate::polygon::Point;
use crate::source::Source;

/// A drawing's walk ends after so many assumptions, or at one more selection with (i) and (v) than these.
const MOST_WALKED: u64 = 3_000;
const MOST_SELECTIONS: usize = 40;

/// The rule that is left out.
#[derive(Clone, Copy, Debug, PartialEq, Eq)]
pub enum Without {
    Nothing,
    RuleA,
    RuleB,
    RuleC,
    /// Every loop is a candidate.
    Cover,
}

pub struct Selections {
    pub candidates: Vec<Loop>,
    /// Those that have (i) and (v).
    pub taken: Vec<Vec<usize>>,
    /// How many have (i).
    pub met: u64,
    /// Whether the walk was ended before all were met.
    pub cut_off: bool,
}

/// The selections of a drawing that passes the drawing rules.
pub fn selections(drawing: &Drawing, without: Without) -> Result<Selections, Refusal> {
    let passed = drawing_rules(drawing, without)?;
    let rings = passed.candidates.iter().map(|c| c.ring().iter().map(|v| *v as usize).collect());
    let mut found = Selections { candidates: rings.collect(), taken: vec![], met: 0, cut_off: false };
    let mut clashes = None;
    let leaf = |taken: u64| {
        let clashes = clashes.get_or_insert_with(|| clashing(&passed, drawing, &found.candidates, without));
        found.met += 1;
        if Members(taken).all(|c| clashes[c] & taken == 0) {
            found.taken.push(Members(taken).collect());
        }
        found.taken.len() > MOST_SELECTIONS
    };
    let (end, _) = Walk::run(&Tables::new(&passed.drawing, &passed.candidates), &passed.candidates, MOST_WALKED, leaf);
    found.cut_off = end != End::Exhausted;
    Ok(found)
}

fn drawing_rules(drawing: &Drawing, without: Without) -> Result<Passed, Refusal> {
    let (xyz, ends) = drawing.lists();
    let mut passed = fast::drawing_rules(Source::Lists(&xyz, &ends))?;
    if without == Without::Cover {
        if passed.loops.len() > MOST_CANDIDATES {
            return refuse(MANY_CANDIDATES, 0);
        }
        passed.candidates.clone_from(&passed.loops);
    }
    Ok(passed)
}

/// Per candidate the set of those it clashes with.
fn clashing(passed: &Passed, drawing: &Drawing, candidates: &[Loop], without: Without) -> Vec<u64> {
    let clash: fn(&[Point], &[Point]) -> bool = match without {
        Without::RuleA => |f, g| rule_b(f, g) || rule_b(g, f) || rule_c(f, g),
        Without::RuleB => |f, g| rule_a(f, g) || rule_a(g, f) || rule_c(f, g),
        Without::RuleC => |f, g| rule_a(f, g) || rule_a(g, f) || rule_b(f, g) || rule_b(g, f),
        Without::Nothing | Without::Cover => return fast::clashes(&passed.drawing, &passed.candidates),
    };
    let faces: Vec<Vec<Point>> = candidates.iter().map(|c| drawing.points(c)).collect();
    let clashes = |f: &Vec<Point>| {
        let with = |set: u64, (k, g): (usize, &Vec<Point>)| set | ((f != g && clash(f, g)) as u64) << k;
        faces.iter().enumerate().fold(0, with)
    };
    faces.iter().map(clashes).collect()
}
