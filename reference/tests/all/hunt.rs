//! The search for solids that bound no region: it finds none, it finds some where a rule is left out, and what it asks
//! is told right of faces made by hand.
use crate::common::*;
use nibgravel_reference::drawing::Drawing;
use nibgravel_reference::gen::bodies::prism;
use nibgravel_reference::gen::flat::ANGULAR;
use nibgravel_reference::gen::known::{cube, two_tetrahedra};
use nibgravel_reference::hunt::*;
use nibgravel_reference::polygon::Point;
use nibgravel_reference::vector::dot;

#[test]
fn a_small_hunt_finds_nothing() {
    let Hunt { tally, found, .. } = Hunt::run(1, 5_000, Without::Nothing);
    assert!(found.is_empty() && tally.findings == 0, "{found:?}");
    assert_eq!((tally.drawings, tally.refused, tally.cut_off), (4_564, 436, 18));
    assert_eq!((tally.selections, tally.clashing, tally.in_pieces), (11_623, 9_114, 327));
    assert_eq!((tally.solids, tally.pinched, tally.most_faces), (2_182, 328, 32));
    assert!(tally.points_inside > 20_000 && tally.points_outside > 20_000 && tally.rays > 200_000, "{tally:?}");
}

/// So each rule is needed, and a selection can fail each question but the last two: with (iii) no two rays differ.
/// These are tried below, with a face turned.
#[test]
fn with_a_rule_left_out_something_is_found() {
    use Finding::*;
    let cases: [(Without, &[Finding]); 4] = [
        (
            Without::RuleA,
            &[NoDirections, NoVolume, Meets(Touch::Pierced), Meets(Touch::Cross), Winding(-1), Winding(2)],
        ),
        (Without::RuleB, &[NoVolume, Meets(Touch::Corner)]),
        (Without::RuleC, &[NoDirections, Meets(Touch::Cross)]),
        (Without::Cover, &[NoDirections, NoVolume, Meets(Touch::Side), Meets(Touch::Overlap), Winding(-1), Winding(2)]),
    ];
    for (without, findings) in cases {
        let found = Hunt::run(1, 400, without).found;
        assert_eq!(found.keys().copied().collect::<Vec<Finding>>(), findings, "{without:?}");
    }
}

#[test]
fn what_is_found_is_printed_with_its_drawing() {
    let text = Hunt::run(1, 400, Without::RuleB).to_string();
    let lines: Vec<&str> = text.lines().collect();
    let at = lines.iter().position(|line| *line == "a corner inside a face, in case 381:").expect("found");
    assert_eq!(lines[at + 1][..23], *"  xyz [[0, 0, 0], [10, ");
    assert_eq!(lines[at + 2][..23], *"  ends [(0, 1), (0, 2),");
    assert_eq!(lines[at + 3][..34], *"  faces [[0, 1, 4, 2], [0, 1, 5, 3");
    assert_eq!(lines[lines.len() - 3..], ["findings: 5", "no volume: 4", "a corner inside a face: 1"]);
}

const SQUARE: &[Point] = &[[0, 0, 0], [6, 0, 0], [6, 6, 0], [0, 6, 0]];
const NOTCHED: &[Point] = &[[0, 0, 0], [6, 0, 0], [6, 6, 0], [3, 2, 0], [0, 6, 0]];

/// How g meets the inside of f, and f that of g; the same for images that fill the range, from every start.
fn touches(f: &[Point], g: &[Point]) -> [Option<Touch>; 2] {
    let told = [touch(f, g), touch(g, f)];
    let images = [
        [[110, 0, 0], [0, -110, 0], [0, 0, 110]],
        [[47, 29, -23], [-31, 53, 19], [17, -37, 43]],
        [[1, 40, 61], [-63, 7, -29], [50, -51, 2]],
    ];
    for rows in images {
        let image = |face: &[Point]| face.iter().map(|p| rows.map(|row| dot(row, *p))).collect::<Vec<Point>>();
        let (mut f, mut g) = (image(f), image(g));
        assert!(f.iter().chain(&g).flatten().all(|c| c.abs() <= 1_000));
        for _ in 0..f.len() {
            f.rotate_left(1);
            g.reverse();
            assert_eq!([touch(&f, &g), touch(&g, &f)], told, "{f:?} {g:?}");
        }
    }
    told
}

#[test]
fn a_corner_or_a_side_meets_the_inside_of_a_face() {
    assert_eq!(touches(SQUARE, &[[2, 3, 0], [2, 3, 5], [5, 5, 5]]), [Some(Touch::Corner), None]);
    // A side that comes up at (x, 4, 0), a third of its way: inside, or in the notch.
    let steep = |x: i128| vec![[x - 1, 4, -1], [x + 2, 4, 2], [x, 9, 2]];
    assert_eq!(touches(SQUARE, &steep(3))[0], Some(Touch::Pierced));
    assert_eq!(touches(NOTCHED, &steep(1))[0], Some(Touch::Pierced));
    assert_eq!(touches(NOTCHED, &steep(3)), [None, None]);
    // A side in the plane: across, from corner to corner, through both arms, through one corner, over the notch.
    let tent = |a: Point, b: Point| vec![a, b, [3, 3, 5]];
    assert_eq!(touches(SQUARE, &tent([-1, 2, 0], [8, 3, 0])), [Some(Touch::Side), None]);
    assert_eq!(touches(SQUARE, &tent([0, 0, 0], [6, 6, 0])), [Some(Touch::Side), None]);
    assert_eq!(touches(NOTCHED, &tent([-1, 5, 0], [7, 5, 0])), [Some(Touch::Side), None]);
    assert_eq!(touches(NOTCHED, &tent([-8, 3, 0], [6, -2, 0])), [Some(Touch::Side), None]);
    assert_eq!(touches(NOTCHED, &tent([0, 6, 0], [6, 6, 0])), [None, None]);
}

#[test]
fn faces_in_one_plane_overlap_or_lie_side_by_side() {
    let within = [[1, 1, 0], [5, 1, 0], [2, 4, 0]];
    assert_eq!(touches(SQUARE, &within), [Some(Touch::Corner), Some(Touch::Overlap)]);
    assert_eq!(touches(SQUARE, NOTCHED), [Some(Touch::Corner), Some(Touch::Overlap)]);
    let one_corner_more = [[0, 0, 0], [3, 0, 0], [6, 0, 0], [6, 6, 0], [0, 6, 0]];
    assert_eq!(touches(SQUARE, &one_corner_more), [Some(Touch::Overlap), Some(Touch::Overlap)]);
    let strip = [[-1, 2, 0], [7, 2, 0], [7, 4, 0], [-1, 4, 0]];
    assert_eq!(touches(SQUARE, &strip), [Some(Touch::Side), Some(Touch::Side)]);
    assert_eq!(touches(NOTCHED, &[[6, 6, 0], [3, 2, 0], [0, 6, 0]]), [None, None]);
    assert_eq!(touches(SQUARE, &[[6, 3, 0], [9, 3, 0], [9, 9, 0], [6, 9, 0]]), [None, None]);
    assert_eq!(touches(SQUARE, &[[8, 3, 0], [9, 3, 0], [9, 9, 0]]), [None, None]);
}

#[test]
fn faces_in_different_planes_cross_or_only_share_borders() {
    let upright = |a: Point, b: Point| {
        let middle = |z: i128| [(a[0] + b[0]) / 2, (a[1] + b[1]) / 2, z];
        [a, middle(5), b, middle(-5)]
    };
    assert_eq!(touches(SQUARE, &upright([0, 0, 0], [6, 6, 0])), [Some(Touch::Cross), Some(Touch::Cross)]);
    assert_eq!(touches(NOTCHED, &upright([3, 2, 0], [3, 0, 0])), [Some(Touch::Cross), Some(Touch::Cross)]);
    let small = [[4, 1, -1], [5, 1, -1], [5, 1, 1], [4, 1, 1]];
    assert_eq!(touches(SQUARE, &small), [Some(Touch::Pierced), Some(Touch::Cross)]);
    assert_eq!(touches(NOTCHED, &upright([3, 2, 0], [3, 6, 0])), [None, None]);
    assert_eq!(touches(NOTCHED, &upright([0, 6, 0], [6, 6, 0])), [None, None]);
    // A whole side in common, a part of one, a corner, a corner on a side, nothing.
    assert_eq!(touches(SQUARE, &[[0, 0, 0], [6, 0, 0], [6, 0, 6], [0, 0, 6]]), [None, None]);
    assert_eq!(touches(SQUARE, &[[2, 0, 0], [8, 0, 0], [3, 3, 5]]), [None, None]);
    assert_eq!(touches(SQUARE, &[[0, 0, 0], [3, 4, 5], [4, 3, 5]]), [None, None]);
    assert_eq!(touches(SQUARE, &[[3, 0, 0], [3, 4, 5], [4, 3, 5]]), [None, None]);
    assert_eq!(touches(SQUARE, &[[0, 0, 1], [6, 0, 1], [6, 6, 1], [0, 6, 1]]), [None, None]);
}

/// The faces of a drawing's only solid.
fn faces(d: &Drawing) -> Vec<Vec<Point>> {
    let [solid] = &solids_of(d)[..] else { panic!("one solid") };
    solid.iter().map(|face| d.points(face)).collect()
}

/// The winding number along a ray, and the number of faces met.
fn along(faces: &[Vec<Point>], start: Point, way: Point) -> (Option<i64>, Option<u64>) {
    let ray = Ray { start, way };
    (winding(faces, ray), faces_met(faces, ray))
}

#[test]
fn a_cube_goes_once_round_its_inside() {
    let cube = faces(&cube());
    for way in [[71, -23, 31], [-71, -23, 31], [13, 83, 29], [13, -83, 29], [17, 11, 97], [17, 11, -97]] {
        assert_eq!(along(&cube, [4, 5, 3], way), (Some(1), Some(1)));
    }
    assert_eq!(along(&cube, [-4, 5, 3], [9, 1, 2]), (Some(0), Some(2)));
    assert_eq!(along(&cube, [-4, 5, 3], [-9, 1, 2]), (Some(0), Some(0)));
    assert_eq!(along(&cube, [-4, 5, 3], [1, 9, 2]), (Some(0), Some(0)));
    // Along an edge's line, from a face's plane.
    assert_eq!(along(&cube, [4, 5, 3], [6, 5, 1]), (None, None));
    assert_eq!(along(&cube, [0, 5, 3], [7, -2, 3]), (None, None));
}

#[test]
fn a_face_turned_or_left_out_is_told() {
    let mut faces = faces(&cube());
    let right = faces.iter().position(|face| face.iter().all(|p| p[0] == 10)).expect("the face at x = 10");
    faces[right].reverse();
    assert_eq!(along(&faces, [4, 5, 3], [7, -2, 3]), (Some(-1), Some(1)));
    assert_eq!(along(&faces, [4, 5, 3], [-7, -2, 3]), (Some(1), Some(1)));
    assert_eq!(along(&faces, [-4, 5, 3], [9, 1, 2]), (Some(-2), Some(2)));
    faces.remove(right);
    assert_eq!(along(&faces, [4, 5, 3], [7, -2, 3]), (Some(0), Some(0)));
    assert_eq!(along(&faces, [-4, 5, 3], [9, 1, 2]), (Some(-1), Some(1)));
}

#[test]
fn a_ray_goes_through_all_teeth_of_a_comb() {
    let comb = faces(&prism(ANGULAR[5], 4, [0, 0]));
    let way = [997, 13, 29];
    assert_eq!(along(&comb, [-1, 3, 2], way), (Some(0), Some(6)));
    assert_eq!(along(&comb, [1, 3, 2], way), (Some(1), Some(5)));
    assert_eq!(along(&comb, [3, 3, 2], way), (Some(0), Some(4)));
    assert_eq!(along(&comb, [5, 3, 2], way), (Some(1), Some(3)));
    assert_eq!(along(&comb, [1, 1, 2], way), (Some(1), Some(1)));
}

#[test]
fn two_bodies_at_a_vertex_are_pinched_there() {
    assert!(pinched(&passed(&two_tetrahedra()).candidates, 7));
    assert!(!pinched(&solids_of(&cube())[0], 8));
}
