//! The order in which walls are painted.
use super::known;
use crate::picture::flat::{area, inside, Point};
use crate::picture::order::back_to_front;
use crate::picture::seen::{Seen, Wall};
use crate::picture::shade::{shade, Tone};
use crate::picture::split::Piece;
use crate::picture::triangles::triangles;

/// At every point of a grid the piece that is painted last is of the nearest wall.
fn is_right(walls: &[Wall], pieces: &[Piece]) -> bool {
    let corners: Vec<[f64; 3]> = walls.iter().flat_map(|wall| wall.points.clone()).collect();
    let range = |axis: usize| corners.iter().fold([f64::MAX, f64::MIN], |r, p| [r[0].min(p[axis]), r[1].max(p[axis])]);
    let at = |axis: usize, step: i32| {
        let [low, high] = range(axis);
        low + (high - low) * (f64::from(step) + 0.137) / 61.0
    };
    (0..61).flat_map(|i| (0..61).map(move |j| (i, j))).all(|(i, j)| {
        let p: Point = [at(0, i), at(1, j)];
        let over = (0..walls.len()).filter(|&wall| inside(p, &walls[wall].outline()));
        let nearest = over.max_by(|&a, &b| walls[a].nearness(p).total_cmp(&walls[b].nearness(p)));
        let painted = pieces.iter().rev().find(|piece| inside(p, &piece.outline)).map(|piece| piece.wall);
        painted == nearest
    })
}

#[test]
fn the_nearest_wall_is_painted_last() {
    for (drawing, conversion) in known::all() {
        for solid in known::solids(&conversion) {
            let walls = Seen::new(&drawing, known::solids(&conversion)).walls(&solid.faces);
            let pieces = back_to_front(&walls);
            assert_eq!(pieces.len(), walls.len(), "no wall of these is cut");
            assert!(is_right(&walls, &pieces));
        }
    }
}

/// A flat bar on the picture from one point to another, at a nearness that rises along it.
fn bar([x, y]: Point, [u, v]: Point, from: f64, to: f64) -> Wall {
    let size = ((u - x) * (u - x) + (v - y) * (v - y)).sqrt();
    let (right, up) = ((u - x) / size, (v - y) / size);
    let slope = (to - from) / size;
    let points =
        vec![[x + up, y - right, from], [u + up, v - right, to], [u - up, v + right, to], [x - up, y + right, from]];
    let normal = [-slope * right, -slope * up, 1.0].map(|part| part / (1.0 + slope * slope).sqrt());
    Wall { candidate: 0, corners: vec![0, 1, 2, 3], points, normal }
}

#[test]
fn walls_that_hide_each_other_in_a_circle_are_cut() {
    let circle = [
        bar([-2.0, 0.0], [12.0, 0.0], 0.0, 4.0),
        bar([11.0, -2.0], [4.0, 12.0], 0.0, 4.0),
        bar([6.0, 12.0], [-1.0, -2.0], 0.0, 4.0),
    ];
    let pieces = back_to_front(&circle);
    assert!(pieces.len() > circle.len());
    assert!(is_right(&circle, &pieces));
}

#[test]
fn a_polygon_that_is_not_convex_is_cut_into_its_triangles() {
    let polygon =
        [[0.0, 0.0], [9.0, 0.0], [9.0, 9.0], [6.0, 9.0], [6.0, 3.0], [3.0, 3.0], [3.0, 9.0], [0.0, 9.0], [0.0, 4.0]];
    let cut = triangles(&polygon);
    let areas: Vec<f64> = cut.iter().map(|triangle| area(&triangle.map(|corner| polygon[corner]))).collect();
    assert!(areas.iter().all(|&area| area > 0.0));
    assert!((areas.iter().sum::<f64>() - area(&polygon)).abs() < 1e-9);
    let straight = [[3.0, 0.0], [9.0, 0.0], [9.0, 9.0], [0.0, 9.0], [0.0, 0.0]];
    assert_eq!(triangles(&straight).len(), 2, "none at a straight corner");
}

#[test]
fn walls_are_lighter_towards_the_light() {
    assert!(shade(Tone::Only, [-0.48, 0.64, 0.6]) > shade(Tone::Only, [0.6, -0.5, 0.62]));
    assert_eq!(shade(Tone::Shared, [1.0, 0.0, 0.0]), "#a0a0a0");
}
