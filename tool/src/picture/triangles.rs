//! A polygon, convex or not, cut into triangles.
use super::flat::{turn, Point, TINY};

/// Triangles that turn left and make up a polygon that turns left, as numbers of its corners.
pub fn triangles(polygon: &[Point]) -> Vec<[usize; 3]> {
    let mut rest: Vec<usize> = (0..polygon.len()).collect();
    let mut cut = Vec::new();
    while rest.len() >= 3 {
        let at = (0..rest.len()).find(|&i| is_ear(polygon, &rest, i)).unwrap_or(0);
        let ear = around(&rest, at);
        let [a, b, c] = ear.map(|corner| polygon[corner]);
        // a straight corner is left out without a triangle
        if turn(a, b, c) > TINY * TINY {
            cut.push(ear);
        }
        rest.remove(at);
    }
    cut
}

/// A corner with the ones before and after it.
fn around(rest: &[usize], at: usize) -> [usize; 3] {
    let count = rest.len();
    [rest[(at + count - 1) % count], rest[at], rest[(at + 1) % count]]
}

/// Whether the triangle at a corner can be cut off: the corner doesn't turn right, and no other is in the triangle.
fn is_ear(polygon: &[Point], rest: &[usize], at: usize) -> bool {
    let ear = around(rest, at);
    let [a, b, c] = ear.map(|corner| polygon[corner]);
    let within = |p: Point| turn(a, b, p) >= 0.0 && turn(b, c, p) >= 0.0 && turn(c, a, p) >= 0.0;
    let free = |corner: &usize| ear.contains(corner) || !within(polygon[*corner]);
    let area = turn(a, b, c);
    area.abs() <= TINY * TINY || (area > 0.0 && rest.iter().all(free))
}
