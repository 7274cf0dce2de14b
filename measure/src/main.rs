//! Runs each stage of a conversion once, and the conversion as a whole, by the proved archive and by the reference's fast version, on the
//! named drawing or on 1,000 generated ones, and holds the two to each other. `tools/measure` counts what each stage executes. With the
//! word `stack` it prints how many bytes of stack were taken at most: by a conversion by the fast version, and then, by the archive for C
//! and Rust, by a conversion of two lists, and by a conversion, a reading and a check of a sheet. With the word `size` it prints how many
//! vertices, edges, loops, candidates and assumptions there are; without a name, the names of the families that grow.
mod entries;
mod plain;
mod proved;
mod stack;

use nibgravel_reference::drawing::Drawing;
use nibgravel_reference::fast;
use nibgravel_reference::gen::growing::{growing, size};
use nibgravel_reference::gen::named::named;
use nibgravel_reference::gen::rng::Rng;
use nibgravel_reference::gen::sheets::{changed, counted_drawing};
use nibgravel_reference::numbers::*;
use nibgravel_reference::sheet::pack_sheet;
use nibgravel_reference::source::Source;
use plain::*;
use proved::*;
use std::hint::black_box;

/// One drawing through the stages, as far as it is not refused.
fn stages(d: &Drawing) {
    let sheet = pack_sheet(d);
    let Ok(fast) = fast::Drawing::read(Source::Sheet(&sheet)) else {
        return;
    };
    let lists = lists(d);
    conversion(d, &lists);
    let refused = proved_rules(black_box(&lists));
    assert_eq!(refused, fast_rules(black_box(&fast)));
    if refused != 0 {
        return;
    }
    let mut loops = NO_LOOPS;
    proved_loops(black_box(&lists), &mut loops);
    let Some(found) = fast_loops(black_box(&fast)) else {
        assert_eq!(loops.count, MOST_LOOPS + 1);
        return;
    };
    same_loops(&loops, &found);
    let mut faces = NO_FACES;
    proved_candidates(black_box(&lists), &loops, &mut faces);
    let candidates = fast_candidates(black_box(&fast), black_box(&found));
    assert_eq!(faces.count, candidates.len().min(MOST_CANDIDATES + 1));
    if faces.count <= MOST_CANDIDATES {
        walks(fast, found, candidates, &lists, &faces);
    }
}

fn conversion(d: &Drawing, lists: &Lists) {
    let (xyz, ends) = d.lists();
    let (mut proved, mut fast) = (NO_ROOMS, NO_ROOMS);
    assert_eq!(
        proved_conversion(black_box(lists), &mut proved),
        fast_conversion(black_box(&xyz), black_box(&ends), &mut fast)
    );
    assert_eq!(proved, fast);
}

/// How many bytes of stack a conversion takes by the fast version, and then what is called by the archive for C and Rust.
fn stack_of(d: &Drawing) -> Vec<usize> {
    let (xyz, ends) = d.lists();
    let mut rooms = NO_ROOMS;
    let fast = stack::bytes(|| fast_conversion(black_box(&xyz), black_box(&ends), &mut rooms));
    [&[fast], &entries::stack_of(d, &lists(d))[..]].concat()
}

/// The tables and the walk.
fn walks(drawing: fast::Drawing, loops: Vec<fast::Loop>, candidates: Vec<fast::Loop>, lists: &Lists, faces: &Faces) {
    let mut lent = NO_TABLES;
    proved_clashes(black_box(lists), faces, &mut lent);
    let (tables, clashes) = fast_clashes(black_box(&drawing), black_box(&candidates));
    assert_eq!((lent.on, lent.up), (tables.on, tables.up));
    assert_eq!((&lent.clashes[..clashes.len()], lent.sixes), (&clashes[..], tables.six));
    let mut solids = [0; SOLID_ROOM];
    let work = proved_walk(black_box(&lent), drawing.edges, faces, &mut solids);
    let passed = fast::Passed { drawing, loops, candidates };
    let mut leaf = fast::Leaf::new(&passed, &tables, MOST_SOLIDS);
    leaf.clashes = Some(clashes);
    assert_eq!(work, fast_walk(black_box(&tables), &passed.candidates, &mut leaf));
    assert_eq!(solids, leaf.words);
}

fn lists(d: &Drawing) -> Lists {
    let (xyz, ends) = d.lists();
    let ends = ends.iter().map(|end| *end as u8).collect();
    let (mut near, mut number) = ([0; 32], [0; PAIRS]);
    for (e, (a, b)) in d.edges.iter().enumerate() {
        near[*a] |= 1 << b;
        near[*b] |= 1 << a;
        number[32 * a + b] = e as u8;
        number[32 * b + a] = e as u8;
    }
    Lists { xyz, ends, near, number }
}

fn same_loops(loops: &Loops, found: &[fast::Loop]) {
    assert_eq!(loops.count, found.len());
    for (k, l) in found.iter().enumerate() {
        assert_eq!(loops.table[FACE_ROW * k], l.corners as u8);
        assert_eq!(loops.table[FACE_ROW * k + 1..FACE_ROW * (k + 1)], l.ring);
        assert_eq!(
            (loops.corners[k], loops.sides[k], loops.planes[k]),
            (l.corner_set as u64, l.edge_set, l.plane as u64)
        );
    }
}

/// The drawing of this name, or all that are generated.
fn drawings(name: &str) -> Vec<Drawing> {
    if name == "generated" {
        let mut r = Rng::new(77);
        let mut generated = || {
            let d = counted_drawing(&mut r, 32);
            changed(&mut r, d)
        };
        return (0..1_000).map(|_| generated()).collect();
    }
    let known = named().into_iter().map(|(known, d)| (known.to_string(), d));
    known.chain(growing()).filter(|(known, _)| known == name).map(|(_, d)| d).collect()
}

/// The most of each number.
fn say_most(drawings: &[Drawing], numbers: impl Fn(&Drawing) -> Vec<usize>) {
    let read = |d: &&Drawing| fast::Drawing::read(Source::Sheet(&pack_sheet(d))).is_ok();
    let mut most = [0; 5];
    for numbers in drawings.iter().filter(read).map(numbers) {
        for (high, number) in most.iter_mut().zip(numbers) {
            *high = number.max(*high);
        }
    }
    let most: Vec<String> = most.iter().map(usize::to_string).collect();
    println!("{}", most.join(" "));
}

fn main() {
    let words: Vec<String> = std::env::args().skip(1).collect();
    let Some(name) = words.first() else {
        growing().iter().for_each(|(name, _)| println!("{name}"));
        return;
    };
    let drawings = drawings(name);
    if drawings.is_empty() {
        eprintln!("no drawing `{name}`");
        std::process::exit(2);
    }
    match words.get(1).map(String::as_str) {
        Some("stack") => say_most(&drawings, stack_of),
        Some("size") => say_most(&drawings, size),
        _ => drawings.iter().for_each(stages),
    }
}
