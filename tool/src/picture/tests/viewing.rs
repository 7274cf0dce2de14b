//! The choice of the view.
use super::known;
use crate::model::Drawing;
use crate::picture::flat::{cross, length, minus};
use crate::picture::seen::Seen;
use crate::picture::view::{flat, View};

#[test]
fn axes_are_at_right_angles_with_z_up() {
    let view = View::towards([29, -53, 31]);
    let [x, y, z] = [[1, 0, 0], [0, 1, 0], [0, 0, 1]].map(|axis| view.seen(axis));
    let dot = |a: [f64; 3], b: [f64; 3]| (0..3).map(|i| a[i] * b[i]).sum::<f64>();
    for (a, b) in [(x, y), (y, z), (z, x)] {
        assert!(dot(a, b).abs() < 1e-12 && (dot(a, a) - 1.0).abs() < 1e-12);
    }
    assert!(z[0].abs() < 1e-12 && z[1] > 0.0, "z is up");
    assert!(x[0] > 0.0 && y[2] < 0.0, "x to the right, y away");
    assert!(cross(flat(x), flat(y)) > 0.0, "not a mirror image, from above");
}

#[test]
fn nothing_that_is_apart_lies_upon_each_other() {
    for (drawing, conversion) in known::all() {
        let seen = Seen::new(&drawing, known::solids(&conversion));
        let extent = seen.points.iter().map(|&p| length(minus(flat(p), flat(seen.points[0])))).fold(0.0, f64::max);
        for (i, &p) in seen.points.iter().enumerate() {
            for &q in &seen.points[..i] {
                assert!(length(minus(flat(p), flat(q))) > extent / 50.0);
            }
        }
    }
}

#[test]
fn two_walls_of_a_tetrahedron_are_seen_at_least() {
    let vertices = [[0, 0, 0], [6, 0, 0], [0, 6, 0], [0, 0, 6]];
    let walls = [vec![0, 2, 1], vec![0, 1, 3], vec![0, 3, 2], vec![1, 2, 3]];
    let (drawing, conversion) = known::body(&vertices, &walls);
    let solids = known::solids(&conversion);
    assert!(Seen::new(&drawing, solids).walls(&solids[0].faces).len() > 1);
}

#[test]
fn between_equals_x_is_to_the_right_and_y_away() {
    let drawing = Drawing { vertices: vec![[1, 2, 3]], edges: vec![] };
    assert_eq!(Seen::new(&drawing, &[]).view, View::towards([29, -53, 31]));
}

#[test]
fn a_wall_meets_the_viewer_or_looks_away() {
    let view = View::towards([3, -4, 5]);
    assert!(view.meets([0, 0, 1]) && view.meets([0, -1, 0]) && !view.meets([0, 1, 0]));
    assert!(!view.meets([4, 3, 0]), "edge on, decided in whole numbers");
}
