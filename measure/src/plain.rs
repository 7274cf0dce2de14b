//! The stages by the reference's fast version.
use crate::proved::Rooms;
use nibgravel_reference::convert::Answer;
use nibgravel_reference::fast;
use nibgravel_reference::numbers::MOST_WORK;
use nibgravel_reference::source::Source;

#[no_mangle]
#[inline(never)]
pub fn fast_rules(d: &fast::Drawing) -> u64 {
    d.rules_11_to_14().map_or_else(|refusal| refusal.number as u64, |()| 0)
}

#[no_mangle]
#[inline(never)]
pub fn fast_loops(d: &fast::Drawing) -> Option<Vec<fast::Loop>> {
    fast::find_loops(d)
}

#[no_mangle]
#[inline(never)]
pub fn fast_candidates(d: &fast::Drawing, loops: &[fast::Loop]) -> Vec<fast::Loop> {
    fast::candidates(d, loops)
}

#[no_mangle]
#[inline(never)]
pub fn fast_clashes(d: &fast::Drawing, candidates: &[fast::Loop]) -> (fast::Tables, Vec<u64>) {
    (fast::Tables::new(d, candidates), fast::clashes(d, candidates))
}

/// The work of the whole walk; the words of the solids are in the leaf.
#[no_mangle]
#[inline(never)]
pub fn fast_walk(tables: &fast::Tables, candidates: &[fast::Loop], leaf: &mut fast::Leaf) -> u64 {
    fast::Walk::run(tables, candidates, MOST_WORK, |taken| leaf.test(taken)).1
}

/// The work of a conversion, or the number that refuses it.
#[no_mangle]
#[inline(never)]
pub fn fast_conversion(xyz: &[i64], ends: &[i64], r: &mut Rooms) -> u64 {
    let source = Source::Lists(xyz, ends);
    match fast::convert(source, MOST_WORK, &mut r.faces, &mut r.solids) {
        Answer::Refused(refusal) => refusal.number as u64,
        Answer::Ended { work, .. } | Answer::Report { work, .. } => work as u64,
    }
}
