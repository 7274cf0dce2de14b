//! The generators repeat themselves, and aim well.
use nibgravel_reference::fast;
use nibgravel_reference::gen::damage::damaged_sheet;
use nibgravel_reference::gen::flat::{convex, star};
use nibgravel_reference::gen::growing::{growing, size};
use nibgravel_reference::gen::rng::Rng;
use nibgravel_reference::gen::sheets::{any_sheet, counted_drawing};
use nibgravel_reference::numbers::*;
use nibgravel_reference::source::Source;
use nibgravel_reference::vector::sides;

#[test]
fn a_seed_gives_the_same_sheets() {
    let sheets =
        |seed: u64| -> Vec<Vec<u8>> { (0..300).map(|case| any_sheet(&mut Rng::of_case(seed, case))).collect() };
    assert_eq!(sheets(1), sheets(1));
    assert_ne!(sheets(1), sheets(2));
}

#[test]
fn damage_hits_the_refusal_aimed_at() {
    let mut r = Rng::new(6);
    for number in SHEET_SHORT..=MANY_CANDIDATES {
        let mut hits = 0;
        for _ in 0..100 {
            let base = counted_drawing(&mut r, 32);
            let sheet = damaged_sheet(&mut r, &base, number);
            let answer = fast::convert(Source::Sheet(&sheet), 100, &mut [0; FACE_ROOM], &mut [0; SOLID_ROOM]);
            hits += (answer.number() == number) as u32;
        }
        assert!(hits > 20, "refusal {number}: {hits} of 100");
    }
}

#[test]
fn polygons_have_the_corners_asked_for() {
    let mut r = Rng::new(7);
    for corners in 3..=16 {
        let convex = convex(corners);
        assert_eq!(convex.len(), corners);
        let steps: Vec<[i64; 2]> = sides(&convex).map(|(a, b)| [b[0] - a[0], b[1] - a[1]]).collect();
        assert!(sides(&steps).all(|(a, b)| a[0] * b[1] - a[1] * b[0] > 0), "{corners} corners, each below 180 degrees");
    }
    (3..=13).for_each(|corners| assert_eq!(star(&mut r, corners, 12).len(), corners));
}

#[test]
fn families_grow_up_to_known_sizes() {
    let sizes: Vec<(String, Vec<usize>)> = growing().iter().map(|(name, d)| (name.clone(), size(d))).collect();
    for family in sizes.chunks(4) {
        let grows = |pair: &[(String, Vec<usize>)]| (0..4).all(|k| pair[0].1[k] < pair[1].1[k]);
        assert!(family.windows(2).all(grows), "{family:?}");
    }
    let largest: Vec<(&str, &[usize])> =
        sizes.iter().skip(3).step_by(4).map(|(name, size)| (&name[..], &size[..])).collect();
    let known: [(&str, &[usize]); 4] = [
        ("prism_12", &[24, 36, 14, 14, 0]),
        ("boxes_7", &[32, 60, 108, 36, 0]),
        ("joined_8", &[8, 28, 56, 56, 45_242]),
        ("octahedra_5", &[26, 60, 55, 55, 484]),
    ];
    assert_eq!(largest, known);
}
