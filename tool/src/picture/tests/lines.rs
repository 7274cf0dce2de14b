//! Segments, gaps of wires, and places of labels.
use super::known;
use crate::model::Drawing;
use crate::picture::flat::{between, distance, length, meeting, minus, Point};
use crate::picture::frame::{Frame, Rectangle};
use crate::picture::labels::{places, Spot};
use crate::picture::seen::Seen;
use crate::picture::view::flat;
use crate::picture::wire::lines;

const ROOM: Rectangle = Rectangle { left: 0.0, top: 0.0, width: 400.0, height: 300.0 };

#[test]
fn segments_that_touch_meet() {
    let line = [[0.1, 0.2], [7.3, 3.7]];
    for part in 0..=100 {
        let p = between(line[0], line[1], f64::from(part) / 100.0);
        let [along, end] = meeting(line, [p, [9.0, -5.0]]).expect("they touch");
        assert!((along - f64::from(part) / 100.0).abs() < 1e-9 && (0.0..1e-9).contains(&end));
    }
    assert_eq!(meeting(line, [[0.1, 1.2], [7.3, 4.7]]), None, "parallel");
    assert_eq!(meeting(line, [[0.0, 9.0], [9.0, 9.0]]), None, "apart");
}

/// Two edges across each other, the first this much higher; and how many lines each of them is drawn as.
fn drawn(higher: i64, wide: i64, long: i64) -> [usize; 2] {
    let vertices = vec![[-wide, 0, higher], [wide, 0, higher], [0, -long, 0], [0, long, 0]];
    let seen = Seen::new(&Drawing { vertices, edges: vec![[0, 1], [2, 3]] }, &[]);
    let frame = Frame::fit(&seen.points, ROOM);
    let lines = lines(&seen, &frame, 7.0);
    [0, 1].map(|edge| {
        let [from, to] = seen.line(edge).map(|end| frame.at(end));
        lines.iter().filter(|line| line.iter().all(|&end| distance(end, from, to) < 1e-6)).count()
    })
}

#[test]
fn the_farther_of_two_wires_has_a_gap() {
    assert_eq!(drawn(10, 99, 99), [1, 2]);
    assert_eq!(drawn(-10, 99, 99), [2, 1]);
    assert_eq!(drawn(0, 99, 99), [1, 1], "they really meet");
    assert_eq!(drawn(1, 990, 3), [1, 2], "a short one doesn't vanish");
}

#[test]
fn labels_stand_by_their_vertices_and_keep_off_lines_and_each_other() {
    for (drawing, conversion) in [known::a_box(), known::l_shape(), known::frame(), known::octahedron()] {
        let seen = Seen::new(&drawing, known::solids(&conversion));
        let frame = Frame::fit(&seen.points, ROOM);
        let spots: Vec<Spot> = seen.points.iter().map(|&p| Spot { at: frame.at(flat(p)), away: 11.0 }).collect();
        let lines: Vec<[Point; 2]> = (0..seen.edges.len()).map(|e| seen.line(e).map(|end| frame.at(end))).collect();
        let places = places(&spots, &lines);
        for (number, &place) in places.iter().enumerate() {
            assert!((length(minus(place, spots[number].at)) - 11.0).abs() < 0.1);
            assert!(lines.iter().all(|line| distance(place, line[0], line[1]) > 4.0));
            assert!(places[..number].iter().all(|&other| length(minus(place, other)) > 8.0));
        }
    }
}

#[test]
fn labels_of_vertices_at_one_point_stand_apart() {
    let labels = places(&[Spot { at: [50.0, 50.0], away: 11.0 }; 4], &[]);
    assert!((0..4).all(|i| labels[..i].iter().all(|&other| length(minus(labels[i], other)) > 8.0)));
}
