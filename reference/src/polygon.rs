//! A polygon in space: its normal and plane, where a point lies, its corner angles, its six volumes.
use crate::vector::*;

pub type Point = [i128; 3];

/// The sum of the corners' cross products: the polygon runs counterclockwise seen from where it points.
pub fn normal(polygon: &[Point]) -> Point {
    sides(polygon).fold([0; 3], |sum, (a, b)| add(sum, cross(a, b)))
}

/// On which side of the polygon's plane a point is, and how far in multiples of the normal's length.
pub fn height(polygon: &[Point], point: Point) -> i128 {
    dot(normal(polygon), sub(point, polygon[0]))
}

/// Where the line through two points of different heights pierces the plane. It stays a fraction, with a denominator
/// above zero.
pub fn piercing_point((p, hp): (Point, i128), (q, hq): (Point, i128)) -> (Point, i128) {
    let sign = (hq - hp).signum();
    (scale(sign, sub(scale(hq, p), scale(hp, q))), sign * (hq - hp))
}

/// Do two polygons lie in one plane?
pub fn one_plane(f: &[Point], g: &[Point]) -> bool {
    let n = normal(f);
    g.iter().all(|p| dot(n, sub(*p, f[0])) == 0)
}

#[derive(Clone, Copy, Debug, PartialEq, Eq)]
pub enum Lies {
    Outside,
    Border,
    Inside,
}

/// Where the point `numerator / denominator` of a simple polygon's plane lies. The denominator is above zero.
pub fn lies(polygon: &[Point], numerator: Point, denominator: i128) -> Lies {
    let n = normal(polygon);
    // Without an axis along which the normal isn't zero, the plane is seen one to one.
    let dropped = (0..3).find(|axis| n[*axis] != 0).expect("a polygon with a normal");
    let (i, j) = ((dropped + 1) % 3, (dropped + 2) % 3);
    let (x, y) = (numerator[i], numerator[j]);
    let flat: Vec<(i128, i128)> = polygon.iter().map(|p| (p[i] * denominator, p[j] * denominator)).collect();
    let mut crossings = 0;
    for ((ax, ay), (bx, by)) in sides(&flat) {
        let turn = (bx - ax) * (y - ay) - (by - ay) * (x - ax);
        if turn == 0 && between(ax, x, bx) && between(ay, y, by) {
            return Lies::Border;
        }
        // A ray towards larger x; a side counts its lower end and not its upper one, so a corner is met once.
        if (ay <= y) != (by <= y) && (turn > 0) == (ay < by) {
            crossings += 1;
        }
    }
    if crossings % 2 == 1 {
        Lies::Inside
    } else {
        Lies::Outside
    }
}

fn between(a: i128, x: i128, b: i128) -> bool {
    a.min(b) <= x && x <= a.max(b)
}

/// Does a direction in the polygon's plane point strictly inside the angle at corner k?
pub fn inside_angle(polygon: &[Point], k: usize, direction: Point) -> bool {
    let n = normal(polygon);
    let corners = polygon.len();
    let next = sub(polygon[(k + 1) % corners], polygon[k]);
    let before = sub(polygon[(k + corners - 1) % corners], polygon[k]);
    // The angle runs counterclockwise about the normal, from the next corner to the one before.
    let turn = |a: Point, b: Point| dot(cross(a, b), n);
    match turn(next, before).signum() {
        1 => turn(next, direction) > 0 && turn(direction, before) > 0,
        // Above 180 degrees: not in the closed rest, which runs from the corner before to the next.
        -1 => turn(before, direction) < 0 || turn(direction, next) < 0,
        _ => turn(next, direction) > 0,
    }
}

/// A face's share of six times the signed volume, in the direction in which it is given.
pub fn six_volumes(face: &[Point]) -> i128 {
    (1..face.len() - 1).map(|i| det(face[0], face[i], face[i + 1])).sum()
}
