//! Moved drawings: the sentences on them, which hold for any right program, and that a wrong one would be told.
use crate::common::*;
use nibgravel_reference::calls::{moved, KINDS};
use nibgravel_reference::convert::Answer;
use nibgravel_reference::drawing::Drawing;
use nibgravel_reference::face_list::pack_faces;
use nibgravel_reference::gen::change::with_numbers;
use nibgravel_reference::gen::known::{cube, nested_cubes, octahedron};
use nibgravel_reference::moves::{corresponds, ways, Converted, Move, Step, QUARTER_TURNS};
use nibgravel_reference::numbers::*;
use nibgravel_reference::sheet::{pack_sheet, read_sheet};
use nibgravel_reference::source::Source;
use nibgravel_reference::vector::det;
use std::fs;
use std::path::Path;

fn at(d: &Drawing, by: &Move) -> Drawing {
    Drawing { vertices: d.vertices.iter().map(|p| by.place(*p)).collect(), edges: d.edges.clone() }
}

fn mirror() -> Move {
    Move::steps(&[Step::Mirror])
}

/// The octahedron with its equator in order, then its poles.
const EQUATOR_FIRST: [usize; 6] = [0, 2, 1, 3, 4, 5];
/// Every solid of the nested cubes gets another number.
const CORNERS_EXCHANGED: [usize; 16] = [4, 1, 2, 3, 0, 5, 6, 7, 8, 9, 10, 11, 12, 13, 14, 15];

/// Each call is compared with what the reference says of the moved drawing where it is made.
#[test]
fn generated_drawings_are_moved_as_told() {
    for kind in KINDS {
        let stream = moved(kind, 51, 150);
        assert!(!stream.is_empty() && stream == moved(kind, 51, 150), "{kind}");
    }
}

#[test]
fn a_shift_changes_nothing() {
    let shifted = at(&octahedron(), &Move::Shift([990, -990, 350]));
    assert_eq!((shifted.vertices[0], shifted.vertices[3]), ([1_000, -990, 350], [990, -1_000, 350]));
    assert_eq!(converted(&shifted, MOST_WORK), converted(&octahedron(), MOST_WORK));
}

#[test]
fn a_mirror_turns_every_face() {
    let (here, there) = (converted(&octahedron(), MOST_WORK), converted(&at(&octahedron(), &mirror()), MOST_WORK));
    assert_eq!((here.words(), there.words()), (&[990, 588, 8_000][..], &[990, 402, 8_000][..]));
    assert_eq!(mirror().converted(here.clone()), there);
    assert_ne!(here, there);
    let list = pack_faces(&solids_of(&octahedron())[0]);
    let verdict = |list: &[u8]| checked(Source::Sheet(&pack_sheet(&at(&octahedron(), &mirror()))), list);
    assert_eq!((verdict(&list), verdict(&mirror().list(&list))), ((INWARD, 0), (0, 0)));
}

#[test]
fn the_axes_lie_on_the_axes_in_48_ways() {
    let ways = ways();
    assert_eq!((ways.len(), ways.iter().map(|way| way.len()).max()), (48, Some(9)));
    let here = converted(&octahedron(), MOST_WORK);
    for way in &ways {
        let by = Move::steps(way);
        let axes = [[1, 0, 0], [0, 1, 0], [0, 0, 1]].map(|axis| by.place(axis));
        assert_eq!(det(axes[0], axes[1], axes[2]), if way.len() % 2 == 1 { -1 } else { 1 });
        assert_eq!(by.converted(here.clone()), converted(&at(&octahedron(), &by), MOST_WORK), "{way:?}");
    }
    let turned = QUARTER_TURNS.map(|turn| Move::steps(turn).place([1, 2, 3]));
    assert_eq!(turned, [[1, 3, -2], [3, 2, -1], [-2, 1, 3]]);
}

#[test]
fn a_factor_is_cubed_in_six_volumes() {
    let (here, by) = (converted(&cube(), 0), Move::Scale(100));
    let there = converted(&at(&cube(), &by), 0);
    assert_eq!((here.words()[2], there.words()[2]), (6_000, 6_000_000_000));
    assert_eq!(by.converted(here), there);
}

#[test]
fn a_higher_limit_changes_no_answer_but_too_long() {
    let said = converted(&octahedron(), 4);
    (5..9).chain([MOST_WORK]).for_each(|limit| assert_eq!(converted(&octahedron(), limit), said));
    assert_eq!(converted(&octahedron(), 3).answer, ended(TOO_LONG, 11, 11, 3));
}

/// The nested cubes, and under new numbers.
fn renumbered() -> (Converted, Converted) {
    let d = with_numbers(&nested_cubes(), &CORNERS_EXCHANGED);
    (converted(&nested_cubes(), MOST_WORK), converted(&d, MOST_WORK))
}

#[test]
fn new_numbers_keep_the_solids() {
    let (here, there) = renumbered();
    assert!(corresponds(&CORNERS_EXCHANGED, &here, &there));
    let numbers: Vec<usize> = (0..16).collect();
    assert!(!corresponds(&numbers, &here, &there), "the faces are others under the old numbers");
    assert!(corresponds(&numbers, &here, &here));
}

#[test]
fn what_is_not_the_same_solids_is_told() {
    let (here, there) = renumbered();
    let told = |change: fn(&mut Converted)| {
        let mut other = there.clone();
        change(&mut other);
        assert!(!corresponds(&CORNERS_EXCHANGED, &here, &other));
    };
    told(|c| c.solids[1] = c.solids[0] & !c.solids[1]);
    told(|c| c.solids[2] += 1);
    told(|c| c.solids.copy_within(0..3, 3));
    told(|c| c.answer = report(24, 24, 4, 2));
    told(|c| c.answer = report(24, 23, 4, 3));
    told(|c| c.answer = ended(NO_SOLID, 24, 24, 4));
    told(|c| c.answer = Answer::Refused(Refusal { number: APART, place: 0 }));
    let refused = |number: u32, place: u32| Converted {
        answer: Answer::Refused(Refusal { number, place }),
        faces: vec![],
        solids: vec![],
    };
    assert!(corresponds(&[], &refused(APART, 1), &refused(APART, 2)), "its place may be another");
    assert!(!corresponds(&[], &refused(APART, 1), &refused(EDGE_MEETS, 1)));
}

#[test]
fn the_samples_are_moved_drawings() {
    let sample = |name: &str| {
        let path = Path::new(env!("CARGO_MANIFEST_DIR")).join(format!("../samples/{name}.sheet"));
        read_sheet(&fs::read(path).expect("a sample")).expect("a drawing")
    };
    assert_eq!(sample("octahedron_shifted"), at(&octahedron(), &Move::Shift([990, -990, 350])));
    assert_eq!(sample("octahedron_mirrored"), at(&octahedron(), &mirror()));
    assert_eq!(sample("octahedron_renumbered"), with_numbers(&octahedron(), &EQUATOR_FIRST));
    assert_eq!(sample("nested_cubes_renumbered"), with_numbers(&nested_cubes(), &CORNERS_EXCHANGED));
}
