//! The walk against all subsets, and the loop search against all closed paths in space.
use crate::common::*;
use nibgravel_reference::drawing::{Drawing, Loop};
use nibgravel_reference::gen::rng::Rng;
use nibgravel_reference::gen::sheets::{changed, counted_drawing};
use nibgravel_reference::loops::{find_loops, normal_form};
use nibgravel_reference::numbers::*;
use nibgravel_reference::polygon::Point;
use nibgravel_reference::solids::{Solid, Table};
use nibgravel_reference::subsets::all_solids;
use nibgravel_reference::vector::{cross, dot, sub};
use nibgravel_reference::walk::{walk, End};
use std::collections::BTreeSet;

/// Drawings that pass the rules and have at most so many vertices and edges.
fn small_drawings(seed: u64, vertices: usize, edges: usize) -> impl Iterator<Item = Drawing> {
    let mut r = Rng::new(seed);
    std::iter::repeat_with(move || {
        let d = counted_drawing(&mut r, vertices);
        changed(&mut r, d)
    })
    .filter(move |d| d.edges.len() <= edges && !(1..=MANY_CANDIDATES).contains(&refusal(converted(d, 0).answer).0))
}

fn sorted(mut solids: Vec<Solid>) -> Vec<Solid> {
    solids.sort_by_key(|solid| solid.taken.clone());
    solids
}

#[test]
fn the_walk_finds_each_solid_once() {
    let (mut with_solids, mut several) = (0, 0);
    for d in small_drawings(21, 16, 64).filter(|d| passed(d).candidates.len() <= 20).take(2_000) {
        let passed = passed(&d);
        let table = Table::new(&d, &passed.candidates);
        let walked = walk(&table, MOST_WORK, usize::MAX);
        assert_eq!(walked.end, End::Exhausted);
        with_solids += !walked.solids.is_empty() as u32;
        several += (walked.solids.len() > 1) as u32;
        assert_eq!(sorted(walked.solids), sorted(all_solids(&table)));
    }
    assert!(with_solids > 500 && several > 0, "{with_solids} with solids, {several} with several");
}

/// Every closed path of 3 to 12 different vertices from its lowest vertex, in any direction.
fn closed_paths(d: &Drawing, path: &mut Loop, found: &mut BTreeSet<Loop>) {
    let last = path[path.len() - 1];
    for next in d.edges.iter().filter(|(a, b)| *a == last || *b == last).map(|(a, b)| a + b - last) {
        if next == path[0] && path.len() >= 3 {
            found.insert(normal_form(path));
        } else if next > path[0] && path.len() < 12 && !path.contains(&next) {
            path.push(next);
            closed_paths(d, path, found);
            path.pop();
        }
    }
}

/// No four of the points span space.
fn one_plane(points: &[Point]) -> bool {
    let from = |p: &Point| sub(*p, points[0]);
    points.iter().all(|p| points.iter().all(|q| points.iter().all(|s| dot(from(p), cross(from(q), from(s))) == 0)))
}

#[test]
fn the_loops_are_the_flat_closed_paths() {
    for d in small_drawings(31, 14, 28).take(500) {
        let mut paths = BTreeSet::new();
        (0..d.vertices.len()).for_each(|start| closed_paths(&d, &mut vec![start], &mut paths));
        let flat: Vec<Loop> = paths.into_iter().filter(|l| one_plane(&d.points(l))).collect();
        assert_eq!(find_loops(&d, MOST_LOOPS).unwrap(), flat);
    }
}
