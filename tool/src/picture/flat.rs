//! Points, segments and polygons on the picture's plane.

pub type Point = [f64; 2];

/// Below this two lengths on the picture, in centimetres of the drawing, are one.
pub const TINY: f64 = 1e-6;

pub fn minus(a: Point, b: Point) -> Point {
    [a[0] - b[0], a[1] - b[1]]
}

pub fn cross(a: Point, b: Point) -> f64 {
    a[0] * b[1] - a[1] * b[0]
}

pub fn dot(a: Point, b: Point) -> f64 {
    a[0] * b[0] + a[1] * b[1]
}

pub fn length(a: Point) -> f64 {
    dot(a, a).sqrt()
}

/// The point that is `part` of the way from `a` to `b`.
pub fn between(a: Point, b: Point, part: f64) -> Point {
    [a[0] + part * (b[0] - a[0]), a[1] + part * (b[1] - a[1])]
}

/// Twice the signed area of the triangle `a`, `b`, `c`.
pub fn turn(a: Point, b: Point, c: Point) -> f64 {
    cross(minus(b, a), minus(c, a))
}

/// How far along the segment from `a` to `b` the foot of `p` is, from 0 to 1; 0 on a segment without length.
pub fn foot(p: Point, a: Point, b: Point) -> f64 {
    let along = minus(b, a);
    let square = dot(along, along);
    if square < TINY * TINY {
        return 0.0;
    }
    (dot(minus(p, a), along) / square).clamp(0.0, 1.0)
}

/// The distance of a point from a segment.
pub fn distance(p: Point, a: Point, b: Point) -> f64 {
    length(minus(p, between(a, b, foot(p, a, b))))
}

/// Where two segments that are not parallel meet: how far along each of them. To touch is to meet, rounding or not.
pub fn meeting(a: [Point; 2], b: [Point; 2]) -> Option<[f64; 2]> {
    let (u, v) = (minus(a[1], a[0]), minus(b[1], b[0]));
    let area = cross(u, v);
    if area.abs() <= TINY * (length(u) * length(v)).max(TINY) {
        return None;
    }
    let apart = minus(b[0], a[0]);
    let (s, t) = (cross(apart, v) / area, cross(apart, u) / area);
    let on = |part: f64| (-TINY..=1.0 + TINY).contains(&part);
    (on(s) && on(t)).then_some([s, t].map(|part| part.clamp(0.0, 1.0)))
}

/// Whether a point is inside a polygon, convex or not. On the border it may be either.
pub fn inside(p: Point, polygon: &[Point]) -> bool {
    let mut within = false;
    for (i, &a) in polygon.iter().enumerate() {
        let b = polygon[(i + 1) % polygon.len()];
        if (a[1] > p[1]) != (b[1] > p[1]) && (turn(a, b, p) > 0.0) == (b[1] > a[1]) {
            within = !within;
        }
    }
    within
}

/// Twice the signed area of a polygon.
pub fn area(polygon: &[Point]) -> f64 {
    (1..polygon.len().saturating_sub(1)).map(|i| turn(polygon[0], polygon[i], polygon[i + 1])).sum()
}

/// The mean of a polygon's corners: inside it if it is convex.
pub fn middle(polygon: &[Point]) -> Point {
    let count = polygon.len().max(1) as f64;
    let sum = polygon.iter().fold([0.0, 0.0], |sum, p| [sum[0] + p[0], sum[1] + p[1]]);
    [sum[0] / count, sum[1] / count]
}

/// What two triangles that turn left have in common: a convex polygon, empty where they are apart.
pub fn common(a: [Point; 3], b: [Point; 3]) -> Vec<Point> {
    let mut rest = a.to_vec();
    for i in 0..3 {
        rest = left_of(&rest, b[i], b[(i + 1) % 3]);
    }
    rest
}

/// The part of a convex polygon to the left of the line from `a` to `b`.
fn left_of(polygon: &[Point], a: Point, b: Point) -> Vec<Point> {
    let mut kept = Vec::new();
    for (i, &p) in polygon.iter().enumerate() {
        let q = polygon[(i + 1) % polygon.len()];
        let (here, there) = (turn(a, b, p), turn(a, b, q));
        if here >= 0.0 {
            kept.push(p);
        }
        if (here > 0.0 && there < 0.0) || (here < 0.0 && there > 0.0) {
            kept.push(between(p, q, here / (here - there)));
        }
    }
    kept
}
